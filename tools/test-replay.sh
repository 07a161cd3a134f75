#!/usr/bin/env bash
# Tests `replay GRAPH AIR`:
#
#     tools/test-replay.sh [PROGRAM]        the program that was built here or is shipped, if none is named
#
#   Head alone: of each example and of random graphs a replay over a file with the head alone gives the tables, notes and status of `run`;
#     if all delays of links are 0, its log too.
#   Within bounds: over random recordings within the bounds of the graph, tables, notes and status are those of `run`, and each claim is made
#     at the reading at which `run` makes it.
#   Past bounds: over others, a late message is past its limit and is named with the first row that is past a bound, as a plain reader in
#     Python finds it; otherwise the tables are those of the meaning, and the lines of what was missed follow from the log.
#   Of all these the log is lawful, and the output is the same by 1 and by 64 workers.
#   Many messages: 500 that arrive at once are taken 64 a turn. Transits of 0 and 10^15, lags of 10^15 on all platforms.
#   Faults: files with one mistake, or that are spelled oddly, beside the plain reader; which of several faults is reported; words.
#   Costs: time and memory beside those of `run`: at most 2.5 and 2 times as much.
#
# TIMES says how many times as many graphs and files there are, 1 if it is unset, and SEED which: the random graphs are those of
# tools/make-random-graph.py with the seeds SEED, SEED + 1 .., 1 if it is unset. It needs python3. If the program has no command
# `replay`, all is skipped. The last line is `N passed, M failed, K skipped`.
set -u
here=$(realpath -- "$0") || exit 1
. "${here%/*}/common.sh"
make_work
if [ $# -gt 0 ]; then
    program=$(realpath -- "$(of_caller "$1")") || exit 1
else
    for program in "$top/out/ptides" "$top/dist/ptides"; do
        [ ! -x "$program" ] || break
    done
fi
skip() { # MESSAGE
    echo "skipped: $1"
    echo '0 passed, 0 failed, 1 skipped'
    exit 0
}

[[ $("$program" 2>&1 </dev/null) == *' | replay GRAPH AIR '* ]] || skip "all, since $program has no command replay"
command -v python3 >/dev/null || skip "all, since python3 isn't there"
# In the background, so that a signal is answered at once.
python3 -B tools/test-replay.py "$program" "$work" "${TIMES:-1}" "${SEED:-1}" &
running=$!
trap '[ -z "$running" ] || { kill "$running"; wait "$running"; } 2>/dev/null; remove_work' EXIT
wait "$running"
status=$?
running=
exit "$status"
