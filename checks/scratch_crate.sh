# To be sourced at the top of the repository: sets up programs that are kept as text beside a script.

# The lines of crates.txt, which has the lowest first, for these libraries and all that they stand on.
crates_below() {
    tac crates.txt | awk -v libraries="$*" '
        BEGIN { count = split(libraries, names, " "); for (i = 1; i <= count; i++) wanted[names[i]] }
        { name = $1; sub(/:$/, "", name) }
        name in wanted {
            for (i = 2; i <= NF; i++) if ($i !~ /=/) wanted[$i]
            print
        }'
}

# Their names alone.
names_below() {
    crates_below "$@" | sed 's/[ :].*//'
}

# copy_parts CRATE PART..
# Copies these folders of a crate, as far as it has them.
copy_parts() {
    local crate=$1 part
    shift
    mkdir "$work/crates/$crate"
    for part in "$@"; do
        if [ -d "crates/$crate/$part" ]; then cp -r "crates/$crate/$part" "$work/crates/$crate/"; fi
    done
}

# scratch_crate NAME MAIN LIBRARY..
# Makes a scratch repository with a program NAME, whose source is the file MAIN, or the files of the folder MAIN, beside
# copies of the crates that it stands on, and goes to its folder. The repository, $work, is gone when the script ends. The
# program is to be tried without proof: what is proved of the crates isn't copied, which takes much room.
scratch_crate() {
    scratch_program 'src specs proofs' "$@"
}

# The same of a program that is to be proved, with what is proved of the crates.
proved_scratch_crate() {
    scratch_program 'src specs proofs out' "$@"
}

# scratch_program PARTS NAME MAIN LIBRARY..
scratch_program() {
    local parts=$1 name=$2 main=$3 crate file
    shift 3
    work=$(mktemp -d)
    trap 'rm -rf "$work"' EXIT
    mkdir "$work/crates"
    cp HANDLES "$work/"
    crates_below "$@" > "$work/crates.txt"
    for crate in $(names_below "$@"); do copy_parts "$crate" $parts; done
    echo "$name: $*" >> "$work/crates.txt"
    mkdir -p "$work/crates/$name/src" "$work/crates/$name/specs"
    if [ -d "$main" ]; then
        for file in "$main"/*.rt.txt; do cp "$file" "$work/crates/$name/src/$(basename "$file" .txt)"; done
    else
        cp "$main" "$work/crates/$name/src/main.rt"
    fi
    touch "$work/crates/$name/specs/Lib.antt"
    cd "$work/crates/$name"
}

# have_version VERSION
# Has the logs of the program be of this version, 1 or 2: its source has a constant for it.
have_version() {
    case $1 in
        1) ;;
        2) sed -i 's/^\(const LOG_VERSION: LogVersion = LogVersion::\)One;$/\1Two;/' src/main.rt ;;
        *) echo 'a log is of version 1 or 2' >&2 && exit 2 ;;
    esac
}
