# shellcheck shell=sh disable=SC2154
# For ./test, ./run, ./compare and others, which source it: says what is wrong and ends, wants the kit of kit.txt, proves
# programs and runs them. $who is the command that speaks, and $root the repository.

stop() {
    printf '%s: %s\n' "$who" "$*" >&2
    exit 1
}

want_kit() {
    kit=$(cat "$root/kit.txt")
    command -v rt >/dev/null ||
        stop "rt, the command of the Rattle toolchain, is not on the PATH; this repository wants the kit '$kit'"
    found=$(rt version)
    [ "$found" = "$kit" ] ||
        stop "this repository is proved with the kit '$kit' (kit.txt), and rt version says '$found'"
}

# prove LOG NAME..: programs are built once they are proved. `rt run` runs each too, here on no input.
prove() {
    log=$1
    shift
    for name; do
        { (cd "$root/crates/$name" && rt run 2>&1 >/dev/null) || echo 'rt run failed'; } </dev/null | tee "$log" |
            awk '/^rt: / && !/^rt: (chose|running|nothing has changed)/ { print; fflush() }' >&2
        case "$(tail -n 1 "$log")" in
        'rt: running '*) ;;
        *)
            tail -n 20 "$log" >&2
            stop "the program $name is not proved, so it is not run"
            ;;
        esac
    done
}

# program NAME [BEFORE..]: the program, or the command BEFORE.. with the program at its end. Programs are for x86-64.
program() {
    name=$1
    shift
    "$@" "$root/crates/$name/out/$name"
}
