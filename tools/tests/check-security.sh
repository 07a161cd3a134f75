#!/usr/bin/env bash
# Checks what docs/SECURITY.md says: which files ptides opens, what it shows of them, and what limits do to it. The last line is
# `N passed, M failed, K skipped`.
#
# What is in single quotes is meant as it is.
# shellcheck disable=SC2016
# shellcheck source-path=SCRIPTDIR source=counting.sh
. "$(dirname -- "$(realpath -- "$0")")/counting.sh" || exit 1
# The program itself, also if PTIDES is the launcher, which opens files of its own.
program=$("$PTIDES" --version 2>/dev/null | sed -n 's/^program \([^,]*\).*/\1/p')
program=${PTIDES%/*}/$program
[ -n "${program##*/}" ] && [ -x "$program" ] || program=$PTIDES
cd -- "$work" || exit 1
copy "$top/examples/basic" basic && cd basic || exit 1
table=$(<expected.csv)

# Writes other.json, whose sensor reads another file.
with_file() { # PATH
    sed "s|\"s.csv\"|\"$1\"|" graph.json >other.json
}

# Runs a command with no more memory than this. A shell that has much itself would fail, so the command takes its place at once.
within() { # KIB COMMAND..
    sh -c 'ulimit -v "$1" && shift && exec "$@"' sh "$@"
}

# What a command writes, both streams, and its status.
shown() { # COMMAND..
    local found
    found=$("$@" 2>&1 </dev/null)
    echo "$found, status $?"
}

check_paths() {
    local each
    mkdir sub
    cp s.csv sub
    equal "the file of the current folder" "$table, status 0" "$(cd sub && shown "$program" run ../graph.json)"
    rm sub/s.csv
    equal "not that of the graph's folder" "read fault: sensor s, status 7" "$(cd sub && shown "$program" run ../graph.json)"
    ln -s ../basic/s.csv link
    for each in "$PWD/s.csv" sub/../s.csv link; do
        with_file "$each"
        equal "the path $each" "$table, status 0" "$(shown "$program" run other.json)"
    done
    with_file sub
    equal "a folder" "read fault: sensor s, status 7" "$(shown "$program" run other.json)"
}

check_devices() {
    local line
    for line in '/dev/zero too long' '/dev/null header' '/dev/stdin header'; do
        with_file "${line%% *}"
        equal "$line" "sensor s: ${line#* }, status 3" "$(shown "$program" run other.json)"
    done
    equal "a graph without an end" "graph: too long, status 2" "$(shown "$program" run /dev/zero)"
    with_file /dev/stdin
    equal "rows from standard input" "$table" "$("$program" run other.json <s.csv)"
    mkfifo fifo
    with_file fifo
    equal "a FIFO to which nobody writes" ", status 124" "$(shown timeout 1 "$program" run other.json)"
    cat s.csv >fifo &
    equal "a FIFO to which somebody writes" "$table, status 0" "$(shown "$program" run other.json)"
    wait
}

# All that is opened, and whether anything is started, changed or sent.
check_calls() {
    local line
    if ! is_there strace || ! strace -o calls true 2>/dev/null; then
        skip "the files that are opened, since strace isn't there or not permitted"
        return
    fi
    for line in 'run graph.json: graph.json s.csv' 'meaning graph.json: graph.json s.csv' 'check graph.json: graph.json' 'make 2:'; do
        # shellcheck disable=SC2086
        strace -f -o calls "$program" ${line%%:*} >/dev/null
        equal "${line%%:*}: files" "${line#*:}" \
            "$(sed -n 's/.*open[^"]*"\([^"]*\)", O_RDONLY.* = [0-9]*$/\1/p' calls | grep -v -e '^/etc/ld' -e '/libc\.so' | sed 's/^/ /' | tr -d '\n')"
        equal "${line%%:*}: other calls" "" \
            "$(grep -E 'O_WRONLY|O_RDWR|O_CREAT|(^|[ 0-9])(socket|connect|unlink|rename|mkdir|kill)[a-z0-9]*\(' calls)"
        equal "${line%%:*}: one program" 1 "$(grep -c 'execve(' calls)"
    done
    rm calls
}

check_texts() {
    sed 's/"name":"s"/"name":"s\\u001b[31m"/' graph.json >other.json
    equal "a control character in a name" "graph: name at actor 0, status 2" "$(shown "$program" run other.json)"
    printf 'time,seen,value\n50,55,\033[31m\n' >odd.csv
    with_file odd.csv
    equal "a control character in a file" "sensor s: number at row 1, status 3" "$(shown "$program" run other.json)"
    is_there python3 || return
    equal "explain: no control character" 0 "$("$top/tools/ptides-explain" other.json | LC_ALL=C grep -c $'\033')"
}

check_limits() {
    { echo time,seen,value; seq 100000 | sed 's/.*/&,&,7/'; } >s.csv
    equal "little memory" "memory, status 9" "$(shown within 6000 "$program" run graph.json)"
    copy "$top/examples/basic/s.csv" s.csv
    equal "enough" "$table, status 0" "$(shown within 2000000 "$program" run graph.json)"
}

# Companions read no more of a device than they need.
check_companions() {
    local each
    is_there python3 || { skip "companions, since python3 isn't there"; return; }
    for each in dot lint probe timing wave; do
        equal "$each of a graph without an end" "graph: too long, status 2" "$(shown within 2000000 timeout 60 "$top/tools/ptides-$each" /dev/zero)"
    done
    equal "explain of a graph without an end" "error: graph: too long" \
        "$(shown within 2000000 timeout 60 "$top/tools/ptides-explain" /dev/zero | head -n 1)"
    with_file /dev/zero
    equal "explain of a file without an end" "error: sensor s: too long" \
        "$(shown within 2000000 timeout 60 "$top/tools/ptides-explain" other.json | head -n 1)"
}

# The sandbox of the page.
check_sandbox() {
    local each
    # shellcheck disable=SC2054
    local box=(bwrap --unshare-all --ro-bind /usr /usr --symlink usr/lib /lib --symlink usr/lib64 /lib64 --ro-bind . /job --ro-bind "$program" /ptides
        --chdir /job)
    if ! is_there bwrap || ! "${box[@]}" /ptides check graph.json >/dev/null 2>&1; then
        skip "the sandbox, since bwrap isn't there or not permitted"
        return
    fi
    equal "in the sandbox" "$table, status 0" "$(shown "${box[@]}" /ptides run graph.json)"
    for each in /etc/passwd "$PWD/s.csv"; do
        with_file "$each"
        equal "$each from the sandbox" "read fault: sensor s, status 7" "$(shown "${box[@]}" /ptides run other.json)"
    done
}

check_paths
check_devices
check_calls
check_texts
check_limits
check_companions
check_sandbox
if is_there python3; then page docs/SECURITY.md examples/basic; else skip "the page, since python3 isn't there"; fi
finish
