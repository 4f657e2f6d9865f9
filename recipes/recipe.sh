# shellcheck shell=bash disable=SC2034
# What the recipes share: each reads this file first. It answers `--help`, finds the programs, and makes a folder $room
# that is gone at the end. No recipe knows the game: what one prints rests on answers of the programs.
set -u
export LC_ALL=C
name=${0##*/}
here=$(dirname "$(readlink -f "$0")")

say() { echo "$name: $1" >&2; }

# print_usage: the command lines that the recipe knows, from the comment at its head.
print_usage() {
    sed -n '2,/^#$/s/^# \(.*\)/  \1/p' "$0"
    echo "  $name --help | --version"
}

# $(find_program NAME): the path of a program: beside the recipe, then one folder up, then on the path. In the folder of
# the sources it is the program that the launcher runs. One that can't be started, as for another machine, is a fault.
find_program() {
    for place in "$here/$1" "$here/../$1" "$(command -v "$1")"; do
        [ -f "$place" ] && [ -x "$place" ] || continue
        [ ! "$place" -ef "$here/../$1" ] || place=$("$here/../tools/program" "$1") || exit 3
        "$place" --help >"$room/out" 2>&1 </dev/null || [[ $? != 12[67] ]] || { say "$place can't be started"; exit 3; }
        echo "$place" && return
    done
    return 1
}

# need_cribplan: finds cribplan, in $program.
need_cribplan() {
    program=$(find_program cribplan) && return
    [ $? -eq 3 ] || say "there is no cribplan that can be run beside it, one folder up, or on the path"; exit 3
}

# keep_input WORD..: for a recipe that has no words of its own. Keeps standard input in $room/input, in which a byte
# more than cribplan reads is enough. If it can't be read, the answer is the fault of cribplan.
keep_input() {
    [ $# -ne 1 ] || [ ! -f "$1" ] || { say "it reads standard input; type $name < $1" && exit 2; }
    [ $# -eq 0 ] || { say "\"$1\" isn't expected here. Type one of these:" && print_usage >&2 && exit 2; }
    head -c 8388609 >"$room/input" 2>/dev/null && return
    say "the input can't be read" && echo "fault 9" >"$room/out" && finish 3
}

# finish STATUS: prints what is kept in $room/out, and ends the recipe.
finish() {
    cat "$room/out" 2>/dev/null && exit "$1"
    say "the answer can't be written"; exit 3
}

# run_python FILE WORD..: runs the part of the recipe that is in Python, and ends the recipe with what it prints and its
# status. An error that it doesn't expect, and a missing Python, are a fault.
run_python() {
    command -v python3 >/dev/null || { say "there is no python3 on the path" && exit 3; }
    name=$name python3 -EsB "$shared/$1" "${@:2}" >"$room/out"
    status=$?
    [ "$status" -ne 1 ] && finish "$status"
    exit 3
}

# stop STATUS: ends the recipe for a signal. A second one, as of a key pressed twice, doesn't stop the tidying up.
stop() { trap '' HUP INT PIPE TERM && exit "$1"; }

# The name is known before the folder is there, so that a signal leaves nothing.
room=${TMPDIR:-/tmp}/$name.$$.$RANDOM
trap 'stop 129' HUP
trap 'stop 130' INT
trap 'stop 141' PIPE
trap 'stop 143' TERM
trap 'trap "" HUP INT PIPE TERM; rm -rf "$room"' EXIT
mkdir -m 700 "$room" 2>/dev/null || { trap - EXIT; say "there can be no folder $room"; exit 3; }
case ${1-} in
--help | -h) # the comment at the head of the recipe, and the statuses that all of them have
    sed -n '2,/^$/s/^# \{0,1\}//p' "$0" >"$room/out"
    echo "Exit status: 2 if an input or these words are refused, 3 if something failed. Manual: man $name" >>"$room/out"
    finish 0 ;;
--version) # of the recipes and the manual. PROOF has it too, which says whether the programs beside it are proved
    cat "$shared/VERSION" "$shared/../VERSION" 2>/dev/null | sed "s/^/$name /; q" >"$room/out" && finish 0 ;;
esac
