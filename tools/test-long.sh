#!/usr/bin/env bash
# Tests long runs, with `--claims N`: that all commands write the same, and how much time and memory they take. It isn't part of the gate.
#
#     tools/test-long.sh [PROGRAM]        the program that was built here or is shipped, if none is named
#
# It makes 10 million firings by `run`, with the log too, by `meaning` and by `replay`, and audits the log; runs a sensor file of 1,000,000
# rows; a day at 1 Hz with 15 actors; and an hour at 100 Hz with 10 actors on 3 platforms, from a log of candump to waves. For each it
# prints the processor time, the greatest memory of a process and how much was written. A run of 10 million firings may take 6 seconds of
# processor time and 800 MB. It needs python3, 3 GB of disk in TMPDIR and 8 GB of memory. The last line is `N passed, M failed`.
set -u
here=$(realpath -- "$0") || exit 1
. "${here%/*}/common.sh"
make_work
if [ $# -gt 1 ]; then
    echo "usage: tools/test-long.sh [PROGRAM]" >&2
    exit 2
fi
if [ $# -eq 1 ]; then
    program=$(realpath -- "$(of_caller "$1")") || exit 1
else
    for program in "$top/out/ptides" "$top/dist/ptides"; do
        [ ! -x "$program" ] || break
    done
fi
# In the background, so that a signal is answered at once.
python3 -B tools/test-long.py "$program" "$work" &
running=$!
trap '[ -z "$running" ] || { kill "$running"; wait "$running"; } 2>/dev/null; remove_work' EXIT
wait "$running"
status=$?
running=
exit "$status"
