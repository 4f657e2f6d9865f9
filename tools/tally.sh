# shellcheck shell=bash
# Counts what a script tries. `.ci/run`, the scripts of tools/ in bash, examples/run and recipes/test read this file
# first. It makes the folder $room, which is gone at the end, with the file $said in it for what differs.
passed=0 failed=0
room=$(mktemp -d) || exit 1
said=$room/said
trap 'rm -rf "$room"' EXIT

pass() { passed=$((passed + 1)); }

# fail WHAT: what differs is in $said.
fail() {
    failed=$((failed + 1))
    echo "FAILED: $1"
    cat "$said"
    : >"$said"
}

# add FILE STATUS: adds the numbers of the last line of a part, of which FILE has what it printed. A part fails if it
# has no such line, or by its status.
add() {
    local more_passed more_failed
    read -r more_passed more_failed < <(tail -n 1 "$1" | sed -n 's/^\([0-9]*\) passed, \([0-9]*\) failed$/\1 \2/p')
    { [ -n "${more_failed:-}" ] && [ "$2" -eq 0 ]; } || [ "${more_failed:-0}" -gt 0 ] || more_failed=1
    passed=$((passed + ${more_passed:-0})) failed=$((failed + more_failed))
}

# `tell`: prints the last line of a script, and its exit status, 1 where something failed.
tell() {
    echo "$passed passed, $failed failed"
    [ "$failed" -eq 0 ]
}
