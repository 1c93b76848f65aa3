#!/usr/bin/env bash
# Runs viper with these arguments, in the folder where it is called. Where the program is missing,
# or a source is newer, it is built first: building is proving, and the shipped example must be
# certified.
# Ends with viper's own status, and with 125 where there is no program to run.
set -u
unset CDPATH
here=$(dirname "$(readlink -f "${BASH_SOURCE[0]}")") || exit 125
crates=$here/crates
program=$crates/viper_cli/out/viper_cli

# Is there no program, or was a file in a source folder changed, added or taken away since it was
# built?
is_due() {
    [ ! -x "$program" ] || [ -n "$(find "$crates" -mindepth 2 -name out -prune -o \
        -name must-fail -prune -o -newer "$program" -print -quit)" ]
}

# However a build ends: its processes and its folder go, and so does a program whose example
# wasn't certified.
clean_up() {
    if [ -n "$builder" ]; then
        kill -TERM -- "-$builder" 2> "$work/kill"
        wait "$builder" 2> "$work/kill"
    fi
    [ -n "$built" ] || rm -f "$program"
    rm -rf "$work"
}

# Proves and links, and checks the shipped example, in a group of processes that ends with this
# script.
build() {
    echo "viper: building, which proves each crate that the program stands on;" \
        "README.md says how long that takes" >&2
    touch "$work/begun"
    set -m
    (cd "$crates/viper_cli" && exec rt run -- check data/image data/plan data/cert) \
        > "$work/log" 2>&1 < /dev/null &
    builder=$!
    set +m
    wait "$builder"
    local status=$?
    builder=
    if [ "$status" != 0 ] || [ ! -x "$program" ]; then
        cat "$work/log" >&2
        return 1
    fi
    # What the prover says of its logic, and of the axioms that it reached.
    grep -E '^(axioms|logic=)' "$work/log" >&2
    # As old as the build's begin, so that a source that was changed meanwhile makes it due again.
    touch -r "$work/begun" "$program" && built=yes
}

# The names among viper's words that are read, and the one that is written.
reads=() writes=()
sort_names() {
    case ${1-} in
        check | run) reads=("${@:2:3}") ;;
        certify) reads=("${@:2:2}") writes=("${@:4:1}") ;;
        upgrade) reads=("${@:2:3}") writes=("${@:5:1}") ;;
        assemble) reads=("${@:2:1}") writes=("${@:3:1}") ;;
        disasm) reads=("${@:2:1}") ;;
    esac
}

can_read() {
    [ -r "$1" ] && [ ! -d "$1" ]
}

# Can the file be written, or made in its folder?
can_write() {
    local folder
    folder=$(dirname "$1")
    if [ -e "$1" ]; then
        [ -w "$1" ] && [ ! -d "$1" ]
    else
        [ -d "$folder" ] && [ -w "$folder" ]
    fi
}

# Status 4 has no text of its own: which name can't be read, or written? Else it was the system.
tell_why() {
    local name told=
    sort_names "$@"
    for name in ${reads[@]+"${reads[@]}"}; do
        can_read "$name" || { echo "viper: no file that can be read: $name" >&2; told=yes; }
    done
    for name in ${writes[@]+"${writes[@]}"}; do
        can_write "$name" || { echo "viper: no file that can be written: $name" >&2; told=yes; }
    done
    [ -n "$told" ] || echo "viper: standard output, or a read or a write on the way, failed" >&2
}

if is_due; then
    work=$(mktemp -d) || exit 125
    builder='' built=''
    trap clean_up EXIT
    trap 'exit 129' HUP
    trap 'exit 130' INT
    trap 'exit 143' TERM
    build || exit 125
    clean_up
    trap - EXIT HUP INT TERM
fi

"$program" "$@"
status=$?
[ "$status" != 4 ] || tell_why "$@"
exit "$status"
