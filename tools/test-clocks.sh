#!/usr/bin/env bash
# Tests `run --clock step:START:STEP`: tables, logs, standard error and statuses, byte for byte:
#
#     PTIDES=PROGRAM tools/test-clocks.sh        through ./ptides if PTIDES isn't set
#
# What is expected follows from the rules of a visit: platform after platform is visited, again and again; the k-th visit of each,
# from k = 0, is at START + k * STEP; what it claims is posted at its next visit. The last line is `N passed, M failed`.
set -u
here=$(realpath -- "$0") || exit 1
. "${here%/*}/common.sh"
program=$top/ptides
[ -z "${PTIDES:-}" ] || program=$(realpath -- "$(of_caller "$PTIDES")") || exit 1
passed=0
failed=0
make_work
usage='usage: ptides run GRAPH [--workers N] [--clock paced|step:START:STEP|machine] [--log] | check GRAPH | meaning GRAPH | make NUMBER [--workers N] | migrate GRAPH | audit GRAPH LOG | slacks GRAPH | replay GRAPH AIR [--workers N] [--log]'

# Graphs, one in a folder each. All have one row: of time 50, seen at 55, with the value 7.
mkdir "$work"/{basic,two,far}
# s ──► x ──► d ──► out: the bound of s is 10, and d adds 100.
cat >"$work/basic/graph.json" <<'GRAPH'
{"ptides":1,"until":1000,"clock_error":0,
 "platforms":["p"],
 "actors":[
  {"name":"s","platform":"p","kind":"sensor","file":"s.csv","bound":10},
  {"name":"x","platform":"p","kind":"scale","num":2,"den":1},
  {"name":"d","platform":"p","kind":"delay","d":100},
  {"name":"out","platform":"p","kind":"actuator","slack":0}],
 "wires":[["s",0,"x",0],["x",0,"d",0],["d",0,"out",0]],
 "links":[]}
GRAPH
# On p s ──► d ──► w, on q r ──► f ──► out: d adds 30 and f 60; the bound of s is 10, and that of r 40 + 5.
cat >"$work/two/graph.json" <<'GRAPH'
{"ptides":1,"until":1000,"clock_error":5,
 "platforms":["p","q"],
 "actors":[
  {"name":"s","platform":"p","kind":"sensor","file":"s.csv","bound":10},
  {"name":"d","platform":"p","kind":"delay","d":30},
  {"name":"w","platform":"p","kind":"send","slack":0},
  {"name":"r","platform":"q","kind":"receive"},
  {"name":"f","platform":"q","kind":"delay","d":60},
  {"name":"out","platform":"q","kind":"actuator","slack":0}],
 "wires":[["s",0,"d",0],["d",0,"w",0],["r",0,"f",0],["f",0,"out",0]],
 "links":[{"from":"w","to":"r","delay":40}]}
GRAPH
# The same with a link that takes up to 100,000.
sed 's/"delay":40/"delay":100000/' "$work/two/graph.json" >"$work/far/graph.json"
for folder in basic two far; do
    printf 'time,seen,value\n50,55,7\n' >"$work/$folder/s.csv"
done

# expect WHAT WANTED FOUND
expect() {
    if [ "$2" = "$3" ]; then
        passed=$((passed + 1))
    else
        failed=$((failed + 1))
        printf 'failed: %s: wanted %q, found %q\n' "$1" "$2" "$3"
    fi
}

# Runs the program in the folder of a graph; leaves its output, its notes and its status.
start() { # FOLDER WORD..
    (cd "$work/$1" && exec "$program" "${@:2}") >"$work/output" 2>"$work/notes" </dev/null
    status=$?
}

# runs FOLDER CLOCK STATUS NOTES LINE: the table has this line below its head, or there is none if the line is empty. It is the
# same for every number of workers.
runs() {
    local workers table=
    [ -z "$5" ] || table=$'actuator,time,step,value\n'$5
    for workers in 1 2 8 64; do
        start "$1" run graph.json --clock "$2" --workers "$workers"
        expect "$1 $2 $workers: status" "$3" "$status"
        expect "$1 $2 $workers: notes" "$4" "$(cat "$work/notes")"
        expect "$1 $2 $workers: table" "$table" "$(cat "$work/output")"
    done
}

# logs FOLDER CLOCK STATUS: the output with --log is what stands on standard input.
logs() {
    cat >"$work/wanted"
    start "$1" run --log graph.json --clock="$2"
    expect "$1 $2 --log: status" "$3" "$status"
    if cmp -s "$work/wanted" "$work/output"; then
        passed=$((passed + 1))
    else
        failed=$((failed + 1))
        echo "failed: $1 $2: the log"
        diff "$work/wanted" "$work/output" | head -n 10
    fi
}

# s is claimed at the first reading past 60, x, d and out at the next three, and out is posted at the fourth.
runs basic step:0:1 0 '' out,150,0,14
runs basic step:61:1 0 '' out,150,0,14
runs basic step:0:61 5 'missed out at 150.0, reading 305 past 150' out,150,0,14
runs basic step:0:1000 5 'missed out at 150.0, reading 5000 past 150' out,150,0,14
# The greatest START and STEP.
runs basic step:1000000000000000:1 5 'missed out at 150.0, reading 1000000000000004 past 150' out,150,0,14
runs basic step:0:1000000000000000 5 'missed out at 150.0, reading 5000000000000000 past 150' out,150,0,14
runs basic step:1000000000000000:1000000000000000 5 'missed out at 150.0, reading 5000000000000000 past 150' out,150,0,14

# w is posted and sent at the third reading after that of s. Its message is late if q's reading before is past 125.
runs two step:0:1 0 '' out,140,0,7
runs two step:0:7 5 $'missed w at 80.0, reading 84 past 80\nmissed out at 140.0, reading 147 past 140' out,140,0,7
runs two step:0:25 5 $'missed w at 80.0, reading 150 past 80\nmissed out at 140.0, reading 225 past 140' out,140,0,7
runs two step:0:26 4 'late r at 80.0, reading 130 past 125' ''
runs two step:0:30 4 'late r at 80.0, reading 150 past 125' ''
runs two step:0:31 5 $'missed w at 80.0, reading 155 past 80\nmissed out at 140.0, reading 248 past 140' out,140,0,7
runs two step:0:1000 4 'late r at 80.0, reading 3000 past 125' ''
runs two step:123:1 5 'missed w at 80.0, reading 126 past 80' out,140,0,7
runs two step:124:1 4 'late r at 80.0, reading 126 past 125' ''
runs two step:1000000000000000:1 4 'late r at 80.0, reading 1000000000000002 past 125' ''
runs two step:1000000000000000:1000000000000000 4 'late r at 80.0, reading 3000000000000000 past 125' ''
# The message may take long, so it isn't late; but out has to wait for the bound.
runs far step:0:1 5 'missed out at 140.0, reading 100089 past 140' out,140,0,7
runs far step:0:1000 5 $'missed w at 80.0, reading 4000 past 80\nmissed out at 140.0, reading 104000 past 140' out,140,0,7
runs far step:0:100000 4 'late r at 80.0, reading 300000 past 100085' ''

logs basic step:0:1 0 <<'LOG'
actuator,time,step,value
out,150,0,14
log
turn,p,0,54,55
turn,p,55,55,1
row,s,50,55,7
turn,p,56,60,5
turn,p,61,61,1
claim,0,s,50,0
turn,p,62,62,1
post,0
claim,1,x,50,0
turn,p,63,63,1
post,1
claim,2,d,50,0
turn,p,64,64,1
post,2
claim,3,out,150,0
turn,p,65,65,1
post,3
turn,p,66,1010,945
turn,p,1011,1011,1
LOG
logs two step:0:25 5 <<'LOG'
actuator,time,step,value
out,140,0,7
log
turn,p,0,50,3
turn,p,75,75,1
row,s,50,55,7
claim,0,s,50,0
turn,p,100,100,1
post,0
claim,1,d,50,0
turn,p,125,125,1
post,1
claim,2,w,80,0
turn,p,150,150,1
post,2
sent,w,80,0,7
turn,p,175,1000,34
turn,p,1025,1025,1
sent,w,end
turn,p,1050,1050,1
turn,q,0,125,6
turn,q,150,150,1
take,r,80,0,7
claim,0,r,80,0
turn,q,175,175,1
post,0
claim,1,f,80,0
turn,q,200,200,1
post,1
claim,2,out,140,0
turn,q,225,225,1
post,2
turn,q,250,1000,31
turn,q,1025,1025,1
take,r,end
turn,q,1050,1050,1
LOG

# Under the clock of the machine the order of visits decides: the table with one miss, whatever the reading, or a late message.
start far run graph.json --clock machine --workers 1
case $status in
    5)
        expect 'machine: table' $'actuator,time,step,value\nout,140,0,7' "$(cat "$work/output")"
        expect 'machine: notes' 1 "$(grep -cE '^missed out at 140\.0, reading [0-9]+ past 140$' "$work/notes")"
        ;;
    *)
        expect 'machine: status' 4 "$status"
        expect 'machine: notes' 1 "$(grep -cE '^late r at 80\.0, reading [0-9]+ past 100085$' "$work/notes")"
        ;;
esac

# Where the words of a clock may stand.
for words in '--clock step:61:1 graph.json' '--clock=step:61:1 graph.json' 'graph.json --clock=step:61:1' '--clock=step:61:1 -- graph.json'; do
    read -ra words <<<"$words"
    start basic run "${words[@]}"
    expect "${words[*]}: status" 0 "$status"
done

# What is no clock.
refuses() { # WORD..
    start basic "$@"
    expect "$*: status" 1 "$status"
    expect "$*: output" '' "$(cat "$work/output")"
    expect "$*: notes" "$usage" "$(cat "$work/notes")"
}

for clock in '' Paced paced: machine: STEP:0:1 step step: step:0 step:0: step::1 step:0:0 step:00:1 step:01:1 step:0:01 step:+0:1 \
    step:0:+1 step:-1:1 step:0:-1 step:1000000000000001:1 step:0:1000000000000001 step:0:18446744073709551617 \
    step:18446744073709551616:1 step:0:1:2 'step:0:1 ' 'step: 0:1' step:0x1:1 step:1.0:1 step:1e3:1 step:0:1_0; do
    refuses run graph.json "--clock=$clock"
done
refuses run graph.json --clock
refuses run --clock graph.json
refuses run graph.json --clock step:0:1 --clock step:0:1
refuses run graph.json --clock step:0:1 0 1
refuses check graph.json --clock step:0:1
refuses meaning graph.json --clock step:0:1
refuses make 7 --clock step:0:1

# The example shows the table that the program prints.
while IFS= read -r row; do
    expect "examples/clocks/README.md: $row" 1 "$(grep -cxF -- "$row" examples/clocks/README.md)"
done < <(PTIDES=$program tools/clocks-table.sh)

echo "$passed passed, $failed failed"
[ "$failed" -eq 0 ]
