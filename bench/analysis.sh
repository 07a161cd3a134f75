#!/bin/sh
# Compares `ptides check` with the plain program bench/analysis.rs on the graphs of bench/graphs.py: the least processor time of
# each in milliseconds, their ratio, and the greatest memory of each in MB. Both have to write the same.
#
#     bench/analysis.sh [TIMES]
set -e
here=$(realpath -- "$0") || exit 1
. "${here%/*}/../tools/common.sh"
times=${1:-9}
make_work
# Not the launcher, which takes some milliseconds of its own.
for program in "${PTIDES:+$(of_caller "$PTIDES")}" "$top/out/ptides" "$top/dist/ptides"; do
    [ ! -x "$program" ] || break
done
rustc -O --edition 2021 -A warnings -o "$work/plain" bench/analysis.rs
python3 bench/graphs.py "$work/graphs" 2>/dev/null
printf '%-10s %10s %10s %6s %10s %10s\n' graph 'proved ms' 'plain ms' ratio 'proved MB' 'plain MB'
for name in largest chain dense two_ways n64 n256 n1024; do
    file=$work/graphs/$name.json
    "$program" check "$file" >"$work/proved.txt"
    "$work/plain" "$file" >"$work/plain.txt"
    cmp -s "$work/proved.txt" "$work/plain.txt" || echo "$name: another text" >&2
    python3 - "$times" "$name" "$program" "$work/plain" "$file" <<'PY'
import os, subprocess, sys
times, name, proved, plain, file = int(sys.argv[1]), *sys.argv[2:]

def measure(words):
    best = None
    for _ in range(times):
        process = subprocess.Popen(words, stdout=subprocess.DEVNULL)
        _, _, usage = os.wait4(process.pid, 0)
        spent = (usage.ru_utime + usage.ru_stime) * 1000
        best = spent if best is None else min(best, spent)
    # For memory wait4 reports this interpreter's own if that is greater.
    timed = subprocess.run(['/usr/bin/time', '-f', '%M'] + words, stdout=subprocess.DEVNULL, stderr=subprocess.PIPE, check=True)
    return best, int(timed.stderr.split()[-1]) / 1024

(a, m), (b, n) = measure([proved, 'check', file]), measure([plain, file])
print(f'{name:10} {a:10.1f} {b:10.1f} {a / b:6.2f} {m:10.1f} {n:10.1f}')
PY
done
