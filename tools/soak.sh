#!/usr/bin/env bash
# Makes random lawful graphs for a time, asks the program all about each, and compares its answers with what the documents say:
#
#     tools/soak.sh SECONDS [PROGRAM]        the program that was built here or is shipped, if none is named
#
# The graphs are those of tools/make-random-graph.py with the seeds SEED, SEED + 1 .., where SEED is from the environment, 1 if it
# is unset; of those whose seed can be divided by 4 the times are far greater. JOBS is how many processes do so at once, 1 if it is
# unset. A case is one command whose answer is compared:
#   check    the table is the one that follows from docs/TIMING.md, worked out here
#   meaning  the table is the one that follows from docs/MEANING.md, worked out here if there are at most 20,000 firings
#   migrate  the text is the one that Python's json writes, and is its own text; what its run writes is what the graph's run writes
#   run      with 1 to 64 workers, under each clock that the usage line of the program names:
#     0, 5     the tables are those of `meaning`; with --log, the lines of what was missed are those that follow from the log, and no
#              unit is claimed before its offset is over
#     5        each line of what was missed is past its limit, which is the tag's time and the slack
#     4        each late row is the first one of its graph; each late message is past its limit, the tag's time and the receiver's bound
#     paced    no message is late; each actor fires at its time + offset + 1, and misses what its margin says; status, notes and output
#              are the same for every number of workers
#     step     status, notes and output are the same for every number of workers
#   audit    what a run or a replay with --log wrote at 0 and 5 is lawful, and isn't with one line less
#   slacks   they are the least ones; if they are written into the graph, `check` gives the margins that follow, `slacks` writes the same,
#            and `run` misses nothing; with one less at a sender `check` and `run` name the first sender that can't send
#   replay   by the head alone and over random networks within the bounds, status, notes, tables and the readings of all claims are those of
#            the paced run; past them, a late message is named with the first row past a bound; for every number of workers all is the same
#   claims   each meaning, each run by another clock than that of the machine, and each replay is made with another number of claims too, 200,000
#            to 100,000,000, if the program takes it: it writes the same, unless it had ended with 6
#   a file   of a sensor that is empty is refused
#
# Every other status, a run of more than 5 minutes and a text on standard error that isn't of its status are differences.
#
# The last line says how many graphs and cases there were, how they ended, what they were, and how many differed; every 5 minutes there
# is such a line too. The folder of a difference is not removed, and is named with its seed; its file `difference` has the command, which
# is run in that folder. It needs python3. The status is 1 if there was a difference.
set -u
here=$(realpath -- "$0") || exit 1
. "${here%/*}/common.sh"
make_work
if [[ ! ${1-} =~ ^[1-9][0-9]*$ ]] || [[ ! ${JOBS:-1} =~ ^[1-9][0-9]*$ ]] || [ $# -gt 2 ]; then
    echo "usage: tools/soak.sh SECONDS [PROGRAM]" >&2
    exit 2
fi
if [ $# -eq 2 ]; then
    program=$(realpath -- "$(of_caller "$2")") || exit 1
else
    for program in "$top/out/ptides" "$top/dist/ptides"; do
        [ ! -x "$program" ] || break
    done
fi
# In the background, so that a signal is answered at once.
python3 -B tools/soak.py "$1" "$program" "$work" "${SEED:-1}" "${JOBS:-1}" &
running=$!
trap '[ -z "$running" ] || { kill "$running"; wait "$running"; } 2>/dev/null; remove_work' EXIT
wait "$running"
status=$?
running=
exit "$status"
