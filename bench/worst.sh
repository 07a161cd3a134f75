#!/bin/sh
# Measures all commands of `ptides` on graphs whose shapes are hard, those of worst_shapes.py, and prints a table: of `run` by each clock,
# `meaning` and `replay` the microseconds an event, of `audit` the nanoseconds a byte of the log, of the others their time, each without and
# with more claims; then the ten calls that cost most beside their goals. The events are the claims, rows and messages of the run. Each shape
# is measured in two forms: as it is made, and with its actors in another order in the file.
#
#     bench/worst.sh [ROUNDS] [SHAPE[:SIZE=NUMBER,..]..]           all shapes if none is named
#     bench/worst.sh growth [ROUNDS] [SHAPE[:SIZE=NUMBER,..]..]    how events and microseconds an event grow if a size is doubled
#
# `python3 bench/worst_shapes.py` lists the shapes and their sizes. A run that takes more than 20 seconds of processor time or 8 GB is ended.
# It measures the program that PTIDES names, else the one that was built here, out/ptides, else the shipped one, and not the
# launcher, which takes some milliseconds of its own. Needs python3 and /usr/bin/time.
set -e
here=$(realpath -- "$0") || exit 1
. "${here%/*}/../tools/common.sh"
for program in "${PTIDES:+$(of_caller "$PTIDES")}" "$top/out/ptides" "$top/dist/ptides"; do
    [ ! -x "$program" ] || break
done
make_work
PYTHONDONTWRITEBYTECODE=1 python3 bench/worst.py "$work" "$program" "$@"
