#!/usr/bin/env bash
# Checks the companions, tools/ptides-NAME: runs each tools/tests/check-* that can be executed, and adds up what they counted.
#
#     tools/check-companions.sh [NAME..]        all, or tools/tests/check-NAME.* alone
#
# A check ends with the line `N passed, M failed, K skipped`, of which the last part may be left out, and prints before it what
# failed and what was skipped. PTIDES names the program; if it is unset that is ./ptides. Real tools that aren't installed are
# skipped by name, and without python3 all checks are.
set -u
here=$(realpath -- "$0") || exit 1
. "${here%/*}/common.sh"
PTIDES=$(of_caller "${PTIDES:-$top/ptides}")
# Nothing is left in the clone.
PYTHONDONTWRITEBYTECODE=1
export PTIDES PYTHONDONTWRITEBYTECODE
passed=0
failed=0
skipped=0

# Runs a check; shows what it says but for its last line, which is counted.
count() { # CHECK
    local found last
    found=$("$1" 2>&1)
    last=${found##*$'\n'}
    if [[ $last =~ ^([0-9]+)\ passed,\ ([0-9]+)\ failed(,\ ([0-9]+)\ skipped)?$ ]]; then
        passed=$((passed + BASH_REMATCH[1]))
        failed=$((failed + BASH_REMATCH[2]))
        skipped=$((skipped + ${BASH_REMATCH[4]:-0}))
        # Of the rest what failed and was skipped is of interest.
        if [ "${BASH_REMATCH[2]}" -gt 0 ]; then
            printf '%s\n' "${found%$'\n'*}"
        else
            grep '^skipped: ' <<<"$found"
        fi
        echo "${1##*/}: $last"
    else
        failed=$((failed + 1))
        printf 'failed: %s ends with a fault\n%s\n' "${1##*/}" "$found"
    fi
}

is_wanted() { # CHECK WANTED..
    local name=${1##*/check-}
    shift
    [ $# -eq 0 ] || [[ " $* " == *" ${name%.*} "* ]]
}

for check in "$top"/tools/tests/check-*; do
    if [ ! -f "$check" ] || [ ! -x "$check" ] || ! is_wanted "$check" "$@"; then
        continue
    elif command -v python3 >/dev/null; then
        count "$check"
    else
        skipped=$((skipped + 1))
        echo "skipped: ${check##*/}, since python3 isn't there"
    fi
done
echo "$passed passed, $failed failed, $skipped skipped"
[ "$failed" -eq 0 ]
