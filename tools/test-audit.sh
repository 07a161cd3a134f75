#!/usr/bin/env bash
# Tests `audit GRAPH LOG`:
#
#     tools/test-audit.sh [PROGRAM]        the program that was built here or is shipped, if none is named
#
#   Lawful: what `run --log` writes of each example and of random graphs, under each clock and by 1 to 64 workers, is `lawful`.
#   Changed: 2,000 such logs in which one number, one name, one line or the order was changed. Each is refused, or it is shown to say
#     the same: the same tables, rows, claims and messages, by readings and turns that are possible too. A refusal has to be right as
#     far as the text shows it: a turn that is named isn't before the change, what isn't linked has other messages at its ends, and so on.
#   Cut and joined: logs that end at each place, two logs in one file, other ends of lines, no last line feed, 64 MiB and a byte more.
#   Words, and which of several faults is reported.
#   Hostile: logs that are long or slow, each with its time and memory. Each has to end.
#   Costs: time and memory beside those of the `run --log` that wrote the log: at most 2.5 and 3 times as much.
#
# It takes about two minutes. TIMES says how many times as many graphs and changed logs there are, 1 if it is unset, and SEED which:
# the random graphs are those of tools/make-random-graph.py with the seeds SEED, SEED + 1 .., 1 if it is unset. It needs python3. If
# the program has no command `audit`, all is skipped. The last line is `N passed, M failed, K skipped`.
set -u
here=$(realpath -- "$0") || exit 1
. "${here%/*}/common.sh"
make_work
if [ $# -gt 0 ]; then
    program=$(realpath -- "$(of_caller "$1")") || exit 1
else
    for program in "$top/out/ptides" "$top/dist/ptides"; do
        [ ! -x "$program" ] || break
    done
fi
skip() { # MESSAGE
    echo "skipped: $1"
    echo '0 passed, 0 failed, 1 skipped'
    exit 0
}

[[ $("$program" 2>&1 </dev/null) == *' | audit GRAPH LOG'* ]] || skip "all, since $program has no command audit"
command -v python3 >/dev/null || skip "all, since python3 isn't there"
# In the background, so that a signal is answered at once.
python3 -B tools/test-audit.py "$program" "$work" "${TIMES:-1}" "${SEED:-1}" &
running=$!
trap '[ -z "$running" ] || { kill "$running"; wait "$running"; } 2>/dev/null; remove_work' EXIT
wait "$running"
status=$?
running=
exit "$status"
