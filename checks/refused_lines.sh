# To be sourced: programs that must not compile, each of whose lines with a mark `// refused: WORDS` is refused by these
# words, and no other line. What the compiler said of the program in this folder's src/ is in the file $log.

# Ends unless each marked line of src/lib.rt is refused by the words of its mark.
marks_are_refused() {
    local line place words
    grep -n 'refused: ' src/lib.rt | while IFS= read -r line; do
        place=src/lib.rt:${line%%:*}:
        words=${line##*refused: }
        if ! grep -F "$place" "$log" | grep -qF "$words"; then
            echo "$place not refused by '$words':" >&2
            cat "$log" >&2
            exit 1
        fi
        echo "refused, as it must be: ${line%% //*}"
    done
}

# Ends where a line without a mark is refused.
nothing_else_is_refused() {
    local file place
    grep -oE '^src/[a-z_]+\.rt:[0-9]+:[0-9]+: error' "$log" | cut -d: -f1,2 | sort -u | while IFS=: read -r file place; do
        if ! sed -n "${place}p" "$file" | grep -q 'refused: '; then
            echo "$file:$place is refused beside those that must be:" >&2
            cat "$log" >&2
            exit 1
        fi
    done
}

# Ends unless the program whose compilation ended with this status was refused, and as its marks say.
must_be_refused() {
    if [ "$1" = 0 ]; then
        echo "compiles, and must not:" >&2
        cat src/lib.rt >&2
        exit 1
    fi
    marks_are_refused
    nothing_else_is_refused
}
