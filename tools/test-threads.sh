#!/usr/bin/env bash
# Tests runs by threads, `run --clock machine --workers N` with N of 2 to 64:
#
#     tools/test-threads.sh [PROGRAM]        the program that was built here or is shipped, if none is named
#
# Which thread visits which platform at which reading differs from run to run, so what is tested is what every run has to keep: at 0
# and 5 the tables are those of the meaning, at 4 a message is named that is past its limit and nothing is written, and nothing else
# occurs. TIMES says how often each run is made, 10 if it is unset.
#   Examples: all whose run is over within a second, by 1 to 64 workers, alone and with more runs beside.
#   Visits: of 40 units that are safe at once, each visit claims 8, as its turn in the log shows.
#   Threads: a run starts as many as there are workers. If some or all can't be started, it ends as any other.
#   Memory: if it is refused, at each allocation of a short run in turn, once or from there on, and at some of a longer one, the run
#     ends as any other, or with 9 and nothing on standard output.
#   A full disk and a failed write: the run ends with 8. A run that is stopped for a time and goes on ends as any other. A run that is
#   ended by a signal has written nothing.
#
# Without cc, or where nothing can be preloaded, the tests of threads and memory are skipped by name. The last line is `N passed, M
# failed, K skipped`.
set -u
here=$(realpath -- "$0") || exit 1
. "${here%/*}/common.sh"
times=${TIMES:-10}
if [ $# -gt 0 ]; then
    program=$(realpath -- "$(of_caller "$1")") || exit 1
else
    for program in "$top/out/ptides" "$top/dist/ptides"; do
        [ ! -x "$program" ] || break
    done
fi
passed=0
failed=0
skipped=0
make_work

finish() {
    echo "$passed passed, $failed failed, $skipped skipped"
    [ "$failed" -eq 0 ]
    exit
}

pass() {
    passed=$((passed + 1))
}

fail() { # MESSAGE
    failed=$((failed + 1))
    echo "failed: $1"
}

skip() { # MESSAGE
    skipped=$((skipped + 1))
    echo "skipped: $1"
}

# Whether a status, an output and notes are those of a run of the graph whose meaning is in `meaning`.
may_end() { # STATUS OUTPUT NOTES
    local line='' message='^late [A-Za-z0-9_]+ at [0-9]+\.[0-9]+, reading ([0-9]+) past ([0-9]+)$'
    case $1 in
        0) cmp -s "$2" "$work/meaning" && [ ! -s "$3" ] ;;
        5) cmp -s "$2" "$work/meaning" && [ -s "$3" ] && ! grep -qv '^missed ' "$3" ;;
        4)
            [ ! -s "$2" ] && read -r line <"$3" && [[ $line =~ $message ]] && [ "${BASH_REMATCH[1]}" -gt "${BASH_REMATCH[2]}" ]
            ;;
        *) return 1 ;;
    esac
}

# Passes if the run in the folder `place` that ended with this status may end so.
judge() { # WHAT STATUS OUTPUT NOTES
    if may_end "$2" "$3" "$4"; then
        pass
    else
        fail "$1: status $2, notes $(head -n 1 "$4"), output $(head -n 3 "$3" | tail -n 1)"
    fi
}

# The meaning of the graph in the folder `place`.
take_meaning() {
    (cd "$place" && exec "$program" meaning graph.json "${blocks[@]}") >"$work/meaning" 2>/dev/null </dev/null
}

run_by() { # WORKERS
    (cd "$place" && exec "$program" run graph.json "${blocks[@]}" --clock machine --workers "$1") >"$work/out" 2>"$work/notes" </dev/null
}

# Two platforms: on p s ──► d ──► w, on q r ──► f ──► out; and 50 rows, the last at half of the horizon.
make_graph() { # UNTIL DELAY
    place=$work/graph.$1
    blocks=()
    mkdir -p -- "$place"
    cat >"$place/graph.json" <<GRAPH
{"ptides":1,"until":$1,"clock_error":5,
 "platforms":["p","q"],
 "actors":[
  {"name":"s","platform":"p","kind":"sensor","file":"s.csv","bound":10},
  {"name":"d","platform":"p","kind":"delay","d":30},
  {"name":"w","platform":"p","kind":"send","slack":0},
  {"name":"r","platform":"q","kind":"receive"},
  {"name":"f","platform":"q","kind":"delay","d":60},
  {"name":"out","platform":"q","kind":"actuator","slack":0}],
 "wires":[["s",0,"d",0],["d",0,"w",0],["r",0,"f",0],["f",0,"out",0]],
 "links":[{"from":"w","to":"r","delay":$2}]}
GRAPH
    { echo time,seen,value; seq -f %.0f $(($1 / 100)) $(($1 / 100)) $(($1 / 2)) | sed 's/.*/&,&,7/'; } >"$place/s.csv"
    take_meaning
}

try_examples() {
    local folder until workers k
    for folder in examples/*/ examples/idioms/*/; do
        place=$top/${folder%/}
        mapfile -t blocks < <(blocks_of "$place")
        if [ ! -e "$place/graph.json" ] || [ -e "$place/make.py" ] || [ -e "$place/to" ]; then
            continue
        fi
        until=$(sed -n 's/.*"until": *\([0-9]*\).*/\1/p' "$place/graph.json" | head -n 1)
        [ "${until:-9999999}" -le 250000 ] || continue
        take_meaning || continue
        for workers in 1 2 3 4 8 64; do
            for ((k = 0; k < times; k++)); do
                run_by "$workers"
                judge "$folder by $workers workers" $? "$work/out" "$work/notes"
            done
        done
    done
}

# Many runs side by side.
try_beside() {
    local k
    for ((k = 0; k < 4 * times; k++)); do
        (cd "$place" && exec "$program" run graph.json --clock machine --workers 8) >"$work/out.$k" 2>"$work/notes.$k" </dev/null &
        pids[k]=$!
    done
    for ((k = 0; k < 4 * times; k++)); do
        wait "${pids[k]}"
        judge 'one of many runs' $? "$work/out.$k" "$work/notes.$k"
    done
}

# 40 sensors of one platform with one row each, of one time: no turn claims more than 8 of them, and some turn 8.
try_visits() {
    local sensors='' k most
    place=$work/many
    mkdir -p -- "$place"
    for ((k = 0; k < 40; k++)); do
        sensors+=",{\"name\":\"s$k\",\"platform\":\"p\",\"kind\":\"sensor\",\"file\":\"s.csv\",\"bound\":10}"
    done
    echo "{\"ptides\":1,\"until\":1000,\"clock_error\":0,\"platforms\":[\"p\"],\"actors\":[${sensors#,}],\"wires\":[],\"links\":[]}" >"$place/graph.json"
    printf '%s\n' time,seen,value 500,500,7 >"$place/s.csv"
    for ((k = 0; k < times; k++)); do
        (cd "$place" && exec "$program" run graph.json --clock machine --workers 4 --log) >"$work/out" 2>"$work/notes" </dev/null
        most=$(awk -F, '$1 == "turn" { n = 0 } $1 == "claim" && ++n > most { most = n } END { print most + 0 }' "$work/out")
        if [ "$most" -eq 8 ]; then pass; else fail "a visit by 4 workers claims $most units"; fi
    done
}

build_library() {
    library=$work/refuse.so
    command -v cc >/dev/null && cc -std=gnu11 -O2 -shared -fPIC -o "$library" tools/src/refuse.c -ldl 2>/dev/null || return
    rm -f -- "$work/counts"
    truncate -s 48 "$work/counts"
    (cd "$place" && LD_PRELOAD=$library REFUSE_COUNTS=$work/counts exec "$program" run graph.json --clock machine --workers 7) >/dev/null 2>&1 </dev/null
    read -ra counts < <(od -An -t u8 -w48 -- "$work/counts")
    [ "${counts[0]}" -gt 0 ]
}

# A run with this refusal; its status may also be 9 with nothing on standard output if the second word says so.
refused() { # REFUSAL NINE WORKERS
    local status
    (cd "$place" && LD_PRELOAD=$library REFUSE=$1 exec "$program" run graph.json --clock machine --workers "$3") >"$work/out" 2>"$work/notes" </dev/null
    status=$?
    if [ "$2" = nine ] && [ "$status" -eq 9 ] && [ ! -s "$work/out" ] && [[ $(cat "$work/notes") =~ ^(memory)?$ ]]; then
        pass
    else
        judge "refused $1 by $3 workers" "$status" "$work/out" "$work/notes"
    fi
}

# Each allocation of the run in the folder `place` is refused, one after another: once, and from there on.
try_each_memory() {
    local many number status out
    cp -- "$work/meaning" "$work/wanted.out"
    : >"$work/wanted.notes"
    for many in 1 0; do
        (cd "$place" && LD_PRELOAD=$library REFUSE="memory 1-$((counts[0] + 40))/1 $many ENOMEM" REFUSE_FOLDER=$work \
            exec "$program" run graph.json --clock machine --workers 4) >"$work/lines" 2>/dev/null </dev/null
        while read -r number status out _; do
            case "$status $out" in
                '0 whole' | '5 whole' | '4 none' | '9 none') pass ;;
                *) fail "memory refused at $number, $many times (0: always): status $status, output $out" ;;
            esac
        done <"$work/lines"
        number=$(wc -l <"$work/lines")
        if [ "$number" -eq $((counts[0] + 40)) ]; then pass; else fail "memory refused at $number places, not $((counts[0] + 40))"; fi
    done
}

try_refusals() {
    local k
    if ! build_library; then
        skip 'threads and memory that are refused, since no library can be preloaded'
        return
    fi
    if [ "${counts[5]}" -eq 7 ]; then pass; else fail "7 workers start ${counts[5]} threads"; fi
    for k in 1 2 3 5; do
        refused "thread $k 1 EAGAIN" never 5
        refused "thread $k 0 EAGAIN" never 5
    done
    # Most allocations come before the threads start; a quarter of the numbers is past them.
    for ((k = 1; k <= counts[0] + 40; k += 1 + counts[0] / (4 * times))); do
        refused "memory $k 1 ENOMEM" nine 4
        refused "memory $k 0 ENOMEM" nine 4
    done
}

try_refusals_in_turn() {
    if build_library; then
        try_each_memory
    else
        skip 'memory that is refused at each allocation, since no library can be preloaded'
    fi
}

try_writes() {
    local status
    if [ -w /dev/full ]; then
        (cd "$place" && exec "$program" run graph.json --clock machine --workers 4) >/dev/full 2>"$work/notes" </dev/null
        status=$?
        : >"$work/out"
        if [ "$status" -eq 8 ] && [ "$(cat "$work/notes")" = 'write fault' ]; then
            pass
        else
            judge 'a full disk' "$((status == 4 ? 4 : 99))" "$work/out" "$work/notes"
        fi
    else
        skip 'a full disk, since /dev/full is not there'
    fi
}

# A run is stopped after this many seconds, and goes on a while later; or it is ended.
try_signals() {
    local seconds pid
    for seconds in 0.01 0.03 0.05 0.08 0.1; do
        (cd "$place" && exec "$program" run graph.json --clock machine --workers 4) >"$work/out" 2>"$work/notes" </dev/null &
        pid=$!
        sleep "$seconds"
        kill -STOP "$pid" 2>/dev/null
        sleep 0.2
        kill -CONT "$pid" 2>/dev/null
        wait "$pid"
        judge "stopped after $seconds s" $? "$work/out" "$work/notes"
    done
    for seconds in 0.01 0.03 0.05 0.08; do
        (cd "$place" && exec "$program" run graph.json --clock machine --workers 4) >"$work/out" 2>"$work/notes" </dev/null &
        pid=$!
        sleep "$seconds"
        kill -TERM "$pid" 2>/dev/null
        wait "$pid" 2>/dev/null
        case $? in
            143) if [ ! -s "$work/out" ]; then pass; else fail "ended after $seconds s, and it has written"; fi ;;
            *) judge "ended after $seconds s, too late" $? "$work/out" "$work/notes" ;;
        esac
    done
}

try_examples
try_visits
make_graph 100000 20000
try_beside
try_refusals
try_writes
try_signals
make_graph 300 5000
try_refusals_in_turn
finish
