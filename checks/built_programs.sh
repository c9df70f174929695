# To be sourced at the top of the repository, after checks/scratch_crate.sh: a program of the repository as it is built.

# built_programs [CRATE]
# Names in `made` the programs that the gate left in the crate's folder out/, one for each compiler; the crate is nfsacc if
# none is named. Where no program is there, or a source is newer, rt run makes one.
built_programs() {
    local crate=${1:-nfsacc} program newer below
    below=($(names_below "$crate"))
    made=()
    for program in crates/$crate/out/$crate crates/$crate/out/$crate.by-rattle; do
        if [ -f "$program" ]; then
            newer=$(find "${below[@]/#/crates/}" -name out -prune -o -newer "$program" \( -name '*.rt' -o -name '*.antt' \) -print)
            if [ -z "$newer" ]; then made+=("$PWD/$program"); fi
        fi
    done
    if [ ${#made[@]} -eq 0 ]; then
        (cd "crates/$crate" && rt run -- --version < /dev/null) || true
        made=("$PWD/crates/$crate/out/$crate")
    fi
}

# fail WORDS FILE..
# Says what is wrong with $program, shows the beginning of each file, and ends.
fail() {
    echo "$program: $1" >&2
    shift
    for file in "$@"; do
        echo "-- $file:" >&2
        head -c 600 "$file" >&2
    done
    exit 1
}
