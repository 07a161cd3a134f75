#!/usr/bin/env bash
# Checks tools/ptides-bench: on the examples, with planted differences, with prove and xmllint, and on a dask cluster of one
# scheduler and two workers on this machine, one of which is stopped in the middle. The last line is
# `N passed, M failed, K skipped`.
#
# What is in single quotes is meant as it is.
# shellcheck disable=SC2016
# shellcheck source-path=SCRIPTDIR source=counting.sh
. "$(dirname -- "$(realpath -- "$0")")/counting.sh" || exit 1
is_there python3 || { skip "all of bench, since there is no python3"; finish; exit; }
bench=$top/tools/ptides-bench
cd -- "$work" || exit 1
export BEHIND=$PTIDES COUNTS=$work
started=()
# A worker whose scheduler is gone may wait for it, so all are killed at once.
stop_all() {
    local each
    for each in ${started[@]+"${started[@]}"}; do
        kill -9 "$each" 2>/dev/null
        wait "$each" 2>/dev/null
    done
    started=()
}
trap 'stop_all; remove_work' EXIT

# The examples are scenarios. Those that need a script to make their files, or another place for their output, are not.
check_the_examples() {
    local folder folders=()
    for folder in "$top"/examples/*/ "$top"/examples/refused/*/; do
        if [ "${folder##*/examples/}" != refused/ ] && [ ! -e "$folder/to" ] && [ ! -e "$folder/make.py" ]; then folders+=("${folder%/}"); fi
    done
    "$bench" "${folders[@]}" >found
    equal "examples: status" 0 "$?"
    equal "examples: all are there" "0 $(($(wc -l <found) - 2))" "$(grep -c '^not ok' found) $(grep -c '^ok' found)"
    equal "examples: the plan" "1..$(grep -c '^ok' found)" "$(sed -n 2p found)"
    copy "$top/examples/stand" stand && (cd stand && python3 ./rows.py)
    if diff -r "$top/examples/stand" stand; then pass; else fail "stand: the scenarios are not what rows.py writes"; fi
}

# Five copies of an example with one thing changed in each, and one as it is. Each change is found, and the first line that differs.
plant() {
    local name
    mkdir planted
    for name in as_it_is check log notes status table; do
        copy "$top/examples/governor" "planted/$name"
    done
    sed -i 's/^up,-300,299$/up,-300,298/' planted/check/expected.check
    sed -i '3s/$/1/' planted/log/expected.log
    echo 'a <b> & "c" ]]>' >planted/notes/expected.notes
    echo 5 >planted/status/status
    echo 'valve,5500,0,1' >>planted/table/expected.csv
}

check_planted() {
    plant
    "$bench" planted --junit planted.xml >found
    equal "planted: status" 1 "$?"
    cat >wanted <<'REPORT'
TAP version 13
1..6
ok 1 - planted/as_it_is
not ok 2 - planted/check
  ---
  message: "expected.check line 5: expected `up,-300,298`, found `up,-300,299`"
  file: "expected.check"
  line: 5
  expected: "up,-300,298\n"
  found: "up,-300,299\n"
  ...
not ok 3 - planted/log
  ---
  message: "expected.log line 3: expected `row,speed,1000,1150,981`, found `row,speed,1000,1150,98`"
  file: "expected.log"
  line: 3
  expected: "row,speed,1000,1150,981\n"
  found: "row,speed,1000,1150,98\n"
  ...
not ok 4 - planted/notes
  ---
  message: "expected.notes line 1: expected `a <b> & \"c\" ]]>`, found the end"
  file: "expected.notes"
  line: 1
  expected: "a <b> & \"c\" ]]>\n"
  found: null
  ...
not ok 5 - planted/status
  ---
  message: "status line 1: expected `5`, found `0`"
  file: "status"
  line: 1
  expected: "5\n"
  found: "0\n"
  ...
not ok 6 - planted/table
  ---
  message: "expected.csv line 4: expected `valve,5500,0,1`, found the end"
  file: "expected.csv"
  line: 4
  expected: "valve,5500,0,1\n"
  found: null
  ...
REPORT
    same "planted: the report" wanted found
}

check_prove() {
    is_there prove || { skip "prove, since it is not installed"; return; }
    "$bench" planted/as_it_is >good.tap
    prove --exec cat good.tap >found 2>&1
    equal "prove: all pass" "0 Result: PASS" "$? $(tail -n 1 found)"
    "$bench" planted >bad.tap
    prove --exec cat bad.tap >found 2>&1
    equal "prove: five fail" "1 Result: FAIL" "$? $(tail -n 1 found)"
    equal "prove: which" "  Failed tests:  2-6" "$(grep 'Failed tests' found)"
}

check_junit() {
    is_there xmllint || { skip "the XML of JUnit, since there is no xmllint"; return; }
    printf '\001\302\200\377<&\n' >planted/notes/expected.notes
    "$bench" planted --junit planted.xml >tap
    equal "JUnit: XML" "" "$(xmllint --noout planted.xml 2>&1)"
    equal "JUnit: suites" "6 5 0" "$(xmllint --xpath 'concat(/testsuites/@tests, " ", /testsuites/@failures, " ", /testsuites/@errors)' planted.xml)"
    equal "JUnit: cases" "6 5 1" "$(xmllint --xpath 'concat(count(//testsuite/testcase), " ", count(//failure[@message]), " ",
        count(//testcase[not(*)][@classname="planted"][@name="as_it_is"][@time]))' planted.xml)"
    equal "JUnit: a message" 'status line 1: expected `5`, found `0`' "$(xmllint --xpath 'string(//testcase[@name="status"]/failure)' planted.xml)"
    (cd planted/as_it_is && "$bench" . --junit "$work/here.xml" >"$work/here.tap")
    equal "JUnit: the current folder" "0 . ok 1 - ." "$? $(xmllint --xpath 'string(//testcase/@name)' here.xml) $(tail -n 1 here.tap)"
    if python3 -c 'import sys; open(sys.argv[1], encoding="utf-8").read()' tap; then pass; else fail "the report is not UTF-8"; fi
}

# --update stores what the scenarios give, shows it, and removes nothing.
check_update() {
    find planted | sort >before
    "$bench" --update planted >found
    equal "update: status" 0 "$?"
    equal "update: what it shows" '# -valve,5500,0,1' "$(grep -A 7 'table/expected.csv, now' found | grep '^# -')"
    find planted | sort >after
    same "update: no other file" before after
    "$bench" planted >found
    equal "update: stored" "0 6" "$? $(grep -c '^ok' found)"
    for each in check/expected.check log/expected.log table/expected.csv; do
        same "update: $each" "$top/examples/governor/${each#*/}" "planted/$each"
    done
    rm planted/table/expected.csv
    sed -i 's/"slack":0}],/"slack":0}],,/' planted/notes/graph.json
    "$bench" --update planted >found
    equal "update: a table again" "$(<"$top/examples/governor/expected.csv")" "$(<planted/table/expected.csv)"
    equal "update: a refusal" "2 graph: not json 0" "$(<planted/notes/status) $(<planted/notes/expected.notes) $(stat -c %s planted/notes/expected.csv)"
    # A program that surely takes longer.
    printf '#!/bin/sh\nexec sleep 60\n' >endless
    chmod +x endless
    cp -r planted/as_it_is endless.before
    PTIDES=./endless "$bench" --update planted/as_it_is --timeout 0.2 >found
    equal "update: no end" '1   message: "no end within 0.2 seconds"' "$? $(grep message found)"
    if diff -r endless.before planted/as_it_is; then pass; else fail "update: no end, and something is stored"; fi
}

# A scenario that can't be used, a program that is ended by a signal, and one that takes too long: each is an error of its scenario,
# and all others are run.
check_errors() {
    local each
    rm -rf campaign
    mkdir campaign
    for each in a b c d e; do copy "$top/examples/basic" "campaign/$each"; done
    rm campaign/*/expected.log campaign/*/expected.check
    echo bad >campaign/b/status
    : >campaign/c/words
    echo 'out,150,0,15' >>campaign/d/expected.csv
    "$bench" campaign --junit campaign.xml >found 2>notes
    equal "a malformed scenario: status and notes" "1 " "$? $(<notes)"
    equal "a malformed scenario: the others are run" "ok 1 - campaign/a, not ok 2 - campaign/b, not ok 3 - campaign/c, not ok 4 - campaign/d, ok 5 - campaign/e" \
        "$(grep -E '^(not )?ok' found | paste -sd , | sed 's/,/, /g')"
    equal "a malformed scenario: its message" '  message: "campaign/b/status: `bad` is no status"' "$(grep -m 1 message found)"
    equal "a malformed scenario: the counts" 'tests="5" failures="1" errors="2"' "$(grep -o 'tests="5" failures="1" errors="2"' campaign.xml | head -n 1)"
    equal "a malformed scenario: elements" "2 1" "$(grep -c '<error ' campaign.xml) $(grep -c '<failure ' campaign.xml)"
    "$bench" campaign --update >found
    equal "a malformed scenario isn't stored over" "1 bad" "$? $(<campaign/b/status)"
    printf '#!/bin/sh\nkill -SEGV $$\n' >ended
    printf '#!/bin/sh\nexit 70\n' >none_to_run
    chmod +x ended none_to_run
    PTIDES=./ended "$bench" campaign/a --junit ended.xml >found
    equal "ended by a signal" '1   message: "the program was ended by signal 11 (Segmentation fault)" 1' \
        "$? $(grep message found) $(grep -c '<error ' ended.xml)"
    PTIDES=./none_to_run "$bench" campaign/a --junit ended.xml >found
    equal "no program behind the launcher" '1 1' "$? $(grep -c '<error ' ended.xml)"
    PTIDES=./endless "$bench" campaign/a --timeout 0.2 --junit ended.xml >found
    equal "no end" '1 1' "$? $(grep -c '<error message="no end within 0.2 seconds"' ended.xml)"
}

# Of many misses there is one line that sums them up, before the first of them, in both reports.
check_misses() {
    rm -rf many
    copy "$top/examples/missed" many
    { echo time,seen,value; seq -f '%.0f' 1000 1000 60000 | sed 's/.*/&,&,90/'; } >many/pressure.csv
    sed -i 's/"until":[0-9]*/"until":70000/' many/graph.json
    rm -f many/expected.* many/status
    "$bench" many --junit many.xml >found
    equal "many misses: a summary" "$(grep -c '^missed' <(cd many && "$PTIDES" run graph.json 2>&1)) events were missed, all by \`valve\`" \
        "$(sed -n 's/^  missed: "\(.*\); the first at .*/\1/p' found)"
    equal "many misses: before the message" "missed message file" "$(sed -n 's/^  \(missed\|message\|file\): .*/\1/p' found | paste -sd ' ')"
    summary=$(sed -n 's/^  missed: "\(.*\)"$/\1/p' found)
    is_there xmllint || { skip "the summary in JUnit, since there is no xmllint"; return; }
    equal "many misses: JUnit's message" "$summary; status line 1: " "$(xmllint --xpath 'string(//failure/@message)' many.xml | sed 's/\(status line 1: \).*/\1/')"
    equal "many misses: JUnit's lines" "$summary missed" "$(xmllint --xpath 'string(//system-err)' many.xml | sed -n '1p;2s/ .*//p' | paste -sd ' ')"
}

# A program that takes a second, and counts how many of it run at a time.
check_side_by_side() {
    mkdir four running
    cat >slow <<'SLOW'
#!/bin/sh
echo >"$COUNTS/running/$$"
ls "$COUNTS/running" | wc -l >>"$COUNTS/at_a_time"
sleep 1
rm "$COUNTS/running/$$"
exec "$BEHIND" "$@"
SLOW
    chmod +x slow
    for each in 1 2 3 4; do copy "$top/examples/basic" "four/$each"; done
    rm four/*/expected.log four/*/expected.check
    PTIDES=./slow "$bench" four --jobs 4 >found
    equal "side by side: status" 0 "$?"
    equal "side by side: four at a time" 4 "$(sort -n at_a_time | tail -n 1)"
    rm at_a_time
    PTIDES=./slow "$bench" four --jobs 1 >again
    equal "one after the other" 1 "$(sort -n at_a_time | tail -n 1)"
    same "side by side: the same report" found again
    PTIDES=./slow "$bench" four/1 --timeout 0.2 >found
    equal "a command without an end" '1   message: "no end within 0.2 seconds"' "$? $(grep message found)"
}

check_refusals() {
    mkdir empty
    refuses "no folder" "ptides bench: none is no folder" "$bench" none
    refuses "no scenario" "ptides bench: empty: no scenario in it: a scenario is a folder with \`words\` or \`graph.json\`" "$bench" empty
    refuses "no words" "ptides bench: the following arguments are required: FOLDER" "$bench"
    refuses "no jobs" "ptides bench: argument --jobs: \`0\` is not a number above 0" "$bench" four --jobs 0
    refuses "no program" "ptides bench: there is no program ./none" env PTIDES=./none "$bench" four
    equal "no folder for the XML" "ptides bench: cannot write none/a.xml: No such file or directory" \
        "$("$bench" four/1 --junit none/a.xml 2>&1 >/dev/null)"
    cp -r four/1 empty/one && echo x >empty/one/status
    equal "no status" '  message: "empty/one/status: `x` is no status"' "$("$bench" empty | grep message)"
    printf 'wave\ngraph.json\n' >empty/one/words
    equal "a companion" '  message: "empty/one/words: `wave` is no command of ptides: the first word has to be one of run, check, meaning, make, migrate, slacks, audit, replay"' \
        "$("$bench" empty | grep message)"
    [ ! -e /dev/full ] || equal "a full disk" "ptides bench: cannot write standard output: No space left on device" "$("$bench" four/1 2>&1 >/dev/full)"
}

# Waits until a command succeeds, for a minute at most.
wait_for() { # COMMAND..
    local _
    for _ in $(seq 120); do
        ! "$@" >/dev/null 2>&1 || return 0
        sleep 0.5
    done
    return 1
}

# A scheduler, two workers of one thread each, eight scenarios of a second; one worker is killed when three have ended.
check_dask() {
    local python='' address port=$((20000 + $$ % 20000)) each
    for each in python3 /usr/bin/python3; do
        [ -n "$python" ] || ! "$each" -c 'import distributed' 2>/dev/null || python=$each
    done
    for each in python3 /usr/bin/python3; do
        if is_there "$each" && ! "$each" -c 'import distributed' 2>/dev/null; then
            "$each" "$bench" four --dask tcp://127.0.0.1:1 >found 2>notes
            equal "no dask: which Python has none" "1 1" "$? $(grep -c "^ptides bench: --dask needs the module distributed, which this Python, $("$each" -c 'import sys; print(sys.executable)') " notes)"
        fi
    done
    [ -n "$python" ] || { skip "dask, since there is no dask.distributed"; return; }
    address=tcp://127.0.0.1:$port
    "$python" "$bench" four --dask "$address" >found 2>notes
    equal "dask: no scheduler" "1 ptides bench: no dask scheduler at $address: Connection refused" "$? $(<notes)"
    "$python" "$bench" four --dask foo >found 2>notes
    equal "dask: no address" "1 ptides bench: --dask: \`foo\` is no address of a scheduler, as tcp://127.0.0.1:8786" "$? $(<notes)"
    "$python" -m distributed.cli.dask_scheduler --host 127.0.0.1 --port "$port" --no-dashboard >scheduler.txt 2>&1 &
    started=($!)
    check_without_workers "$python" "$address"
    for each in 1 2; do
        "$python" -m distributed.cli.dask_worker "$address" --nthreads 1 --no-nanny --no-dashboard --name "w$each" --host 127.0.0.1 >"worker$each.txt" 2>&1 &
        started+=($!)
    done
    if ! wait_for "$python" -c "from distributed import Client; c = Client('$address', timeout=2); assert len(c.scheduler_info()['workers']) == 2"; then
        fail "dask: no cluster of two workers: $(tail -n 1 scheduler.txt)"
        stop_all
        return
    fi
    check_the_cluster "$python" "$address"
    stop_all
}

# A scheduler without a worker: that is said at once, and the campaign begins with the first worker.
check_without_workers() { # PYTHON ADDRESS
    local bench_id worker_id
    wait_for "$1" -c "import socket; socket.create_connection(('127.0.0.1', ${2##*:}))"
    "$1" "$bench" planted/as_it_is --dask "$2" >found 2>notes &
    bench_id=$!
    if wait_for grep -q "^ptides bench: the dask scheduler at $2 has no worker: waiting for one, 60 seconds at most$" notes; then pass; else fail "dask: no worker, and no line"; fi
    "$1" -m distributed.cli.dask_worker "$2" --nthreads 1 --no-nanny --no-dashboard --host 127.0.0.1 >worker0.txt 2>&1 &
    worker_id=$!
    wait "$bench_id"
    equal "dask: the first worker comes late" "0 ok 1 - planted/as_it_is" "$? $(tail -n 1 found)"
    kill -9 "$worker_id"
    wait "$worker_id" 2>/dev/null
}

check_the_cluster() { # PYTHON ADDRESS
    local each
    "$1" "$bench" "$top/examples/stand/scenarios" planted --dask "$2" >found 2>notes
    equal "dask: status and notes" "1 " "$? $(<notes)"
    "$bench" "$top/examples/stand/scenarios" planted >wanted
    same "dask: the same report as here" wanted found
    for each in 5 6 7 8; do cp -r four/1 "four/$each"; done
    echo 'out,150,0,15' >>four/6/expected.csv
    "$bench" four >wanted
    PTIDES=$work/slow "$1" "$bench" four --dask "$2" --junit four.xml >found 2>notes &
    each=$!
    wait_for grep -q '^ok 3' found || fail "dask: nothing has ended"
    kill -9 "${started[2]}"
    wait "${started[2]}" 2>/dev/null
    wait "$each"
    equal "dask: a worker is lost: status" 1 "$?"
    same "dask: a worker is lost: the same report" wanted found
    equal "dask: a worker is lost: JUnit" '<testsuites name="ptides" tests="8" failures="1"' "$(grep -o '<testsuites name="ptides" tests="8" failures="1"' four.xml)"
    if wait_for "$1" -c "from distributed import Client; assert len(Client('$2', timeout=10).scheduler_info()['workers']) == 1"; then
        pass
    else
        fail "dask: the worker was not lost"
    fi
}

check_the_examples
check_planted
check_prove
check_junit
plant_again() { rm -rf planted; plant; }
check_update
plant_again
check_side_by_side
check_errors
check_misses
check_refusals
check_dask
if "$bench" -h | grep -q '^example:'; then pass; else fail "-h has no example"; fi
if python3 -c 'import ast, sys; ast.parse(open(sys.argv[1]).read(), feature_version=(3, 9))' "$bench"; then pass; else fail "not for Python 3.9"; fi
page docs/SCENARIOS.md .
page examples/stand/README.md examples/stand
finish
