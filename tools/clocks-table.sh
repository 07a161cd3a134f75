#!/usr/bin/env bash
# Prints the table of examples/clocks/README.md: the governor under `--clock step:0:STEP`, for some STEPs.
#
#     PTIDES=PROGRAM tools/clocks-table.sh [STEP..]        through ./ptides if PTIDES isn't set
set -u
here=$(realpath -- "$0") || exit 1
. "${here%/*}/common.sh"
program=$top/ptides
[ -z "${PTIDES:-}" ] || program=$(realpath -- "$(of_caller "$PTIDES")") || exit 1
[ $# -gt 0 ] || set -- 1 10 60 61 100 113 150 196 201 208 1000
make_work
cd examples/clocks || exit 1

misses() { # ACTOR
    grep -c "^missed $1 " "$work/notes"
}

cat <<'HEAD'
| STEP | Visits of each platform | Status | Missed by `up` | Missed by `valve` | Late message |
|---|---|---|---|---|---|
HEAD
for step; do
    "$program" run graph.json --log --clock "step:0:$step" >"$work/output" 2>"$work/notes" </dev/null
    status=$?
    case $status in
        0 | 5)
            visits=$(awk -F, '$1 == "turn" && $2 == "plant" { visits += $5 } END { print visits }' "$work/output")
            echo "| $step | $visits | $status | $(misses up) | $(misses valve) | |"
            ;;
        4) echo "| $step | | 4 | | | \`$(<"$work/notes")\` |" ;;
        *)
            echo "clocks-table.sh: step $step ends with status $status: $(<"$work/notes")" >&2
            exit 1
            ;;
    esac
done
