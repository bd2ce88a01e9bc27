# What tests/program and tests/find share: cases that are counted, in a folder of their own. A script reads this first, and
# sets `is_whole=yes` at its end.
set -eu
# Otherwise bash says on standard error that there is no such locale, if there is none.
export LC_ALL=C

passed=0
failed=0
is_whole=no
scratch=

fail() {
    printf 'FAILED: %s: %s\n' "$1" "$2"
    failed=$((failed + 1))
}

# However the script ends, the last line counts, and a case that was never reached is no success.
finish() {
    local status=$?
    rm -rf "$scratch"
    [ "$is_whole" = yes ] || fail 'the cases' "they broke off with status $status"
    printf '%d passed, %d failed\n' "$passed" "$failed"
    [ "$failed" = 0 ] || exit 1
}
trap finish EXIT

cd "$(dirname "${BASH_SOURCE[0]}")/.."
scratch=$(mktemp -d)
nothing=$scratch/nothing
: > "$nothing"
printf '7\n' > "$scratch/seven"
printf 'A\n' > "$scratch/name"

# The lines of a text, none of an empty one.
lines() {
    [ -z "$1" ] || printf '%s\n' "$1"
}

# Up to four lines as one.
one_line() {
    head -n 4 | tr '\n' ' '
}

# expect NAME STATUS PRINTED SAID COMMAND WORD...: a case. The command has to end with STATUS, to print
# the text of the file PRINTED on standard output, and to say the lines SAID on standard error.
expect() {
    local name=$1 status=$2 printed=$3 said=$4 ended=0
    shift 4
    "$@" > "$scratch/printed" 2> "$scratch/said" || ended=$?
    if [ "$ended" != "$status" ]; then
        fail "$name" "the status is $ended, and should be $status"
    elif ! cmp -s "$printed" "$scratch/printed"; then
        fail "$name" "what is printed differs from $printed"
    elif ! lines "$said" | cmp -s - "$scratch/said"; then
        fail "$name" "it says '$(one_line < "$scratch/said")', and should say '$(lines "$said" | one_line)'"
    else
        passed=$((passed + 1))
    fi
}

# If the program isn't built yet, this builds it, and what is said meanwhile gets into no case.
./pp_print < /dev/null > /dev/null || [ "$?" != 3 ]
