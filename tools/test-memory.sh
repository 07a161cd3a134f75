#!/usr/bin/env bash
# Tests that the program ends as the documents say if memory, an open, a read or a write is refused:
#
#     tools/test-memory.sh [PROGRAM]        the program that was built here or is shipped, if none is named
#
# A library that is preloaded (tools/src/refuse.c, built with cc) lets the calls of the program fail. It is tried on each command of
# each example and each refused example, and on `make 1`; files alone also on two graphs that this script makes, whose output is
# several blocks and whose notes are several lines.
#   Memory: each allocation in turn is refused, alone and together with all later ones. The program has to end as without
#   it, with the same output and notes, or with 9, nothing on standard output, and `memory` or nothing on standard error.
#   Files: each open and each read in turn fails, is interrupted, would block, or gives one byte. Each write does, or finds no
#   room, or takes nothing. The program has to end as without it, or with 7 and nothing on standard output, or with 8 and a front
#   of it. A read or write of one byte changes nothing at all, and what fails on standard error nothing else.
# So that it takes less than a minute, only the short commands have each call refused. If a command makes more than MOST
# allocations, each STRIDEth is refused, beginning with the first, where STRIDE is the least number with which they are MOST at
# most; in a run that ends with 6 and in the audit of a file that is too long, which take long, they are LONG at most. MOST and LONG
# are 100 and 8, or what the environment says: MOST=1000000 LONG=1000000 refuses all of them.
#
# Without cc, or where nothing can be preloaded, the test is skipped by name. The last line is `N passed, M failed, K skipped`.
set -u
here=$(realpath -- "$0") || exit 1
. "${here%/*}/common.sh"
most_refused=${MOST:-100}
most_of_long=${LONG:-8}
if [ $# -gt 0 ]; then
    program=$(realpath -- "$(of_caller "$1")") || exit 1
else
    for program in "$top/out/ptides" "$top/dist/ptides"; do
        [ ! -x "$program" ] || break
    done
fi
passed=0
failed=0
skipped=0
make_work

finish() {
    echo "$passed passed, $failed failed, $skipped skipped"
    [ "$failed" -eq 0 ]
    exit
}

fail() { # MESSAGE
    failed=$((failed + 1))
    echo "failed: $1"
}

skip() { # MESSAGE
    skipped=$((skipped + 1))
    echo "skipped: $1"
}

build_library() {
    library=$work/refuse.so
    if ! command -v cc >/dev/null; then
        skip "all, since cc isn't there"
        finish
    fi
    if ! cc -std=gnu11 -O2 -shared -fPIC -o "$library" tools/src/refuse.c -ldl 2>"$work/building"; then
        skip "all, since cc can't build tools/src/refuse.c: $(head -n 1 "$work/building")"
        finish
    fi
    truncate -s 48 "$work/counts"
    LD_PRELOAD=$library REFUSE_COUNTS=$work/counts "$program" check /dev/null >/dev/null 2>&1
    read_counts
    if [ "${counts[0]}" -eq 0 ] || [ "${counts[1]}" -eq 0 ]; then
        skip "all, since nothing can be preloaded into $program"
        finish
    fi
}

# The numbers of allocations, opens, reads, writes to standard output and to standard error, and threads.
read_counts() {
    read -ra counts < <(od -An -t u8 -w48 -- "$work/counts")
}

# A run without a refusal, in the folder `copy`. It has to end as wanted. It leaves the numbers of its calls, and in `same` what the
# library says of a run that ends like this one.
run_whole() { # WHAT WORD..
    local what=$1 status output=whole notes=whole
    shift
    rm -f -- "$work/counts"
    truncate -s 48 "$work/counts"
    (cd "$copy" && LD_PRELOAD=$library REFUSE_COUNTS=$work/counts exec "$program" "$@") >"$work/out" 2>"$work/notes" </dev/null
    status=$?
    read_counts
    if [ "$status" -ne "$wanted" ] || ! cmp -s "$work/out" "$work/wanted.out" || ! cmp -s "$work/notes" "$work/wanted.notes"; then
        fail "$what, with nothing refused: status $status, or another text than the stored one"
        return 1
    fi
    [ -s "$work/wanted.out" ] || output=none
    [ -s "$work/wanted.notes" ] || notes=none
    same="$wanted $output $notes"
}

# Runs the program with each of the refusals, if there is any. What the library says of each run has to fit the pattern.
refuse_each() { # ORDER ALLOWED WHAT WORD..
    local order=$1 allowed=$2 what=$3 lines number ending
    shift 3
    [[ $order != *' 1-0/'* ]] || return
    lines=$(cd "$copy" && LD_PRELOAD=$library REFUSE=$order REFUSE_FOLDER=$work exec "$program" "$@" 2>&1 </dev/null)
    while read -r number ending; do
        if [[ $ending =~ ^($allowed)$ ]]; then
            passed=$((passed + 1))
        else
            fail "$what, with $order: at $number $ending"
        fi
    done <<<"$lines"
}

# Every command is tried in the folder `copy`, with its wanted status, output and notes in place.
try() { # WHAT WORD..
    run_whole "$@" || return
    try_memory "$@"
    [ "$wanted" -eq 6 ] || try_files "$@"
}

# How many calls of one kind are refused.
most_for() { # WHAT
    case $wanted/$1 in
        6/* | */refused/log_too_long) echo "$most_of_long" ;;
        *) echo "$most_refused" ;;
    esac
}

try_memory() { # WHAT WORD..
    local most stride many
    most=$(most_for "$1")
    stride=$(((counts[0] + most - 1) / most))
    for many in 1 0; do
        refuse_each "memory 1-${counts[0]}/$stride $many ENOMEM" "$same|9 none (none|other: memory)" "$@"
    done
}

try_files() { # WHAT WORD..
    local way read_fault='7 none other: read fault: (blocks|graph|sensor [A-Za-z0-9_]+|log|air)' most stride
    most=$(most_for "$1")
    stride=$(((counts[2] + most - 1) / most))
    for way in EACCES EMFILE ENOMEM; do
        refuse_each "open 1-${counts[1]}/1 1 $way" "$same|$read_fault" "$@"
    done
    for way in EIO EAGAIN; do
        refuse_each "read 1-${counts[2]}/$stride 1 $way" "$same|$read_fault" "$@"
    done
    for way in EIO ENOSPC EPIPE EAGAIN none; do
        refuse_each "out 1-${counts[3]}/1 1 $way" "$same|8 (none|part) other: write fault" "$@"
        refuse_each "notes 1-${counts[4]}/1 1 $way" "${same% *} (none|part|whole|other: .*)" "$@"
    done
    refuse_each "open 1-${counts[1]}/1 1 EINTR" "$same" "$@"
    # One byte at a time; and a call that a signal interrupts is made again.
    for way in one EINTR; do
        refuse_each "read 1-${counts[2]}/$stride 1 $way" "$same" "$@"
        refuse_each "out 1-${counts[3]}/1 1 $way" "$same" "$@"
        refuse_each "notes 1-${counts[4]}/1 1 $way" "$same" "$@"
    done
}

# want STATUS OUTPUT NOTES: what the next command has to give; a file that isn't there is an empty one.
want() {
    wanted=$1
    cat -- "$2" >"$work/wanted.out" 2>/dev/null
    cat -- "$3" >"$work/wanted.notes" 2>/dev/null
}

try_example() { # FOLDER
    local folder=$1 name=${1#examples/} words=(run graph.json) blocks status=0
    [ ! -e "$folder/to" ] || return
    rm -rf -- "$copy"
    cp -r -- "$folder" "$copy" && chmod -R u+rwX "$copy"
    if [ -e "$copy/make.py" ]; then
        command -v python3 >/dev/null || { skip "$name, since python3 isn't there"; return; }
        (cd "$copy" && python3 ./make.py) || { fail "$name: make.py ends with a fault"; return; }
    fi
    [ ! -e "$folder/words" ] || mapfile -t words <"$folder/words"
    mapfile -t blocks < <(blocks_of "$folder")
    [ ! -e "$folder/status" ] || status=$(<"$folder/status")
    want "$status" "$folder/expected.csv" "$folder/expected.notes"
    try "$name" "${words[@]}"
    if [ -e "$folder/expected.csv" ]; then
        want 0 "$folder/expected.csv" /dev/null
        try "$name: the meaning" meaning graph.json "${blocks[@]}"
    fi
    if [ -e "$folder/expected.log" ]; then
        cat "$folder/expected.csv" "$folder/expected.log" >"$work/whole"
        want "$status" "$work/whole" "$folder/expected.notes"
        [ "${words[0]}" = replay ] || words=(run graph.json "${blocks[@]}")
        try "$name with --log" "${words[@]}" --log
        echo lawful >"$work/lawful"
        cp -- "$work/whole" "$copy/whole.log"
        want 0 "$work/lawful" /dev/null
        try "$name: audit" audit graph.json whole.log "${blocks[@]}"
    fi
    if [ -e "$folder/expected.check" ]; then
        want 0 "$folder/expected.check" /dev/null
        try "$name: check" check graph.json "${blocks[@]}"
    fi
}

# A table and a log of several blocks, and a note for each of 20 missed events.
try_made_graphs() {
    copy=$work/copy
    rm -rf -- "$copy"
    mkdir -- "$copy"
    { echo time,seen,value; seq -f %.0f 1000 1000 6000000 | sed 's/.*/&,&,7/'; } >"$copy/s.csv"
    graph_of_one_platform 10000000 100 '{"name":"out","platform":"p","kind":"actuator","slack":200}' >"$copy/graph.json"
    of_itself try_files 'a large table' 0 run graph.json
    of_itself try_files 'a large log' 0 run --log graph.json
    graph_of_one_platform 20000 100 '{"name":"out","platform":"p","kind":"actuator","slack":0}' >"$copy/graph.json"
    of_itself try_files 'missed events' 5 run graph.json
    of_itself try_memory 'make 1' 0 make 1
}

graph_of_one_platform() { # UNTIL BOUND ACTUATOR
    cat <<GRAPH
{"ptides":1,"until":$1,"clock_error":0,"platforms":["p"],"links":[],"wires":[["s",0,"out",0]],
 "actors":[{"name":"s","platform":"p","kind":"sensor","file":"s.csv","bound":$2},$3]}
GRAPH
}

# What is wanted is what the program writes with nothing refused.
of_itself() { # TEST WHAT STATUS WORD..
    local test=$1 what=$2
    wanted=$3
    shift 3
    (cd "$copy" && exec "$program" "$@") >"$work/wanted.out" 2>"$work/wanted.notes" </dev/null
    run_whole "$what" "$@" && "$test" "$what" "$@"
}

build_library
copy=$work/copy
for folder in examples/*/ examples/idioms/*/ examples/refused/*/; do
    folder=${folder%/}
    case $folder in
        examples/idioms | examples/refused) ;;
        *) try_example "$folder" ;;
    esac
done
try_made_graphs
finish
