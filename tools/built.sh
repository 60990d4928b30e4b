# Sourced by the scripts beside it.

# need PROGRAM..: ends the script where one of these programs is missing
need() {
    local program
    for program in "$@"; do
        command -v "$program" >/dev/null || { echo "skipped: $program is missing"; exit 0; }
    done
}

# built NAME FOLDER: builds the program crates/NAME with `rt`, compares its stored run, writes what is
# wrong to the standard error, and prints the path of the built program. FOLDER takes what it wrote.
built() {
    local crate program words=()
    crate="$(cd "$(dirname "${BASH_SOURCE[0]}")/../crates/$1" && pwd)" || return 2
    program="$crate/out/$1"
    cd "$crate" && rt check >"$2/log" 2>&1 || { cat "$2/log" >&2; return 2; }
    # `rt run` builds it. It stands in its crate's folder then, and these words keep it from its work.
    rt run -- --build-alone </dev/null >"$2/log" 2>&1
    [ -x "$program" ] || { cat "$2/log" >&2; return 2; }
    [ ! -f args ] || mapfile -t words <args
    mkdir "$2/stored" && cd "$2/stored" || return 2
    "$program" "${words[@]}" <"$crate/stdin" >"$2/worked"
    cmp -s "$2/worked" "$crate/stdout" || { echo "$1 doesn't write its stored output" >&2; return 1; }
    echo "$program"
}
