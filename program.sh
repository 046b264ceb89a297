# Sourced by ./stepper, ./sheet and ./record, which set `name`, `usage` and `here`: builds the program from what is proved, and runs it on
# standard input. The program is held to its sources each time, in a second or two where nothing has changed: so it never answers by a
# rule that is no longer there. (host/programs takes `prepare` alone.)
root=$(cd "$here" && pwd)
say() { echo "$name: $*" >&2; }

# asked WORD..: answers --help, and refuses other options
asked() {
    case ${1:-} in
    -h | --help) echo "$usage"; exit 0 ;;
    -*) misused ;;
    esac
}
misused() { echo "$usage" >&2; exit 2; }
readable() { [ -f "$1" ] && [ -r "$1" ] || { say "$1: no file that can be read"; exit 1; }; }

# Sets `run`. rt says that it runs a program only where that is proved and built; here it runs it on nothing.
prepare() {
    local program="$root/crates/$name/out/$name" said
    command -v rt >/dev/null || { say "rt is not here: it proves and builds the program (README.md, What a machine needs)"; exit 1; }
    [ -x "$program" ] || say "the program is proved before it is built: some six minutes, this once"
    said=$(cd "$root/crates/$name" && rt run 2>&1 >/dev/null </dev/null) || true
    if [[ $said != *"rt: running out/$name;"* ]]; then
        printf '%s\n' "$said" | tail -n 20 >&2
        say "the sources are not proved, so nothing was run"
        exit 1
    fi
    run=("$program")
}

# The program says on standard error what failed, and this ends as it ended.
launch() {
    local ended=0
    prepare
    "${run[@]}" || ended=$?
    exit "$ended"
}
