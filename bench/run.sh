#!/bin/sh
# Builds both programs, runs them in turn, and prints the least time of each in microseconds and their ratio.
# Both have to write the same, but for the kinds that the plain program lacks.
set -e
here=$(realpath -- "$0") || exit 1
. "${here%/*}/../tools/common.sh"
times=${1:-7}
parts=100
make_work
echo "measure $parts" >"$work/line.txt"
(cd crates/pt_cases && rt run <"$work/line.txt" >/dev/null 2>&1)
rustc -O --edition 2021 -o "$work/plain" bench/plain.rs 2>/dev/null
for _ in $(seq "$times"); do
    crates/pt_cases/out/pt_cases <"$work/line.txt" 2>>"$work/proved.txt" >"$work/proved_sums.txt"
    "$work/plain" "$parts" 2>>"$work/plain.txt" >"$work/plain_sums.txt"
done
if grep -Fvxf "$work/proved_sums.txt" "$work/plain_sums.txt"; then
    echo "the proved program does not write these lines" >&2
    exit 1
fi
awk '
    { if (!($1 in least) || $2 < least[$1]) least[$1] = $2 }
    FNR == NR { if (!($1 in plain) || $2 < plain[$1]) plain[$1] = $2; delete least[$1]; next }
    !($1 in seen) { seen[$1] = 1; order[++n] = $1 }
    END {
        printf "%-8s %10s %10s %6s\n", "what", "proved", "plain", "ratio"
        for (i = 1; i <= n; i++) {
            k = order[i]
            if (k in plain) printf "%-8s %10d %10d %6.2f\n", k, least[k], plain[k], least[k] / plain[k]
            else printf "%-8s %10d %10s %6s\n", k, least[k], "-", "-"
        }
    }
' "$work/plain.txt" "$work/proved.txt"
