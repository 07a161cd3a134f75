#!/bin/sh
# Compares `ptides meaning` and `ptides run` with the plain programs event_loop.rs and paced_engine.rs on the workloads of
# workloads.py: builds the plain programs, makes the workloads, runs all in turn, and prints tables of processor time and memory
# with their ratios. All have to write the same tables.
#
#     bench/compare.sh [ROUNDS [WORKLOAD..]]
#
# It measures the program that PTIDES names, else the one that was built here, out/ptides, else the shipped one, and not the
# launcher, which takes some milliseconds of its own. Needs rustc, python3 and /usr/bin/time.
set -e
here=$(realpath -- "$0") || exit 1
. "${here%/*}/../tools/common.sh"
for program in "${PTIDES:+$(of_caller "$PTIDES")}" "$top/out/ptides" "$top/dist/ptides"; do
    [ ! -x "$program" ] || break
done
make_work
for name in event_loop paced_engine; do
    rustc -C opt-level=3 -C codegen-units=1 --edition 2021 -A warnings -o "$work/$name" "bench/$name.rs"
done
python3 bench/compare.py "$work" "$program" "$@"
