#!/usr/bin/env bash
# Tests that the launcher and the tools do the same, and no harm, wherever and however they are started: from a clone whose path
# has odd characters or can't be written, by another user, by links, with odd settings, and when something that they need is
# missing. It proves nothing and takes about a minute. What isn't installed or permitted is skipped by name. The last line is
# `N passed, M failed, K skipped`.
set -u
here=$(realpath -- "$0") || exit 1
. "${here%/*}/testing.sh"

# Expects that the last command, a script that counts, has counted no failure.
expect_pass() { # WHAT
    local last
    last=$(tail -n 1 "$work/output")
    if [ "$status" -eq 0 ] && [[ $last =~ ^[1-9][0-9]*\ passed,\ 0\ failed ]]; then
        passed=$((passed + 1))
    else
        expect "$1" 'N passed, 0 failed' "status $status: $(tail -n 5 "$work/output" "$work/notes")"
    fi
}

# A folder with links to the tools that the launcher needs, but one of them.
tools_without() { # TOOL
    local tool
    rm -rf -- "$work/few"
    mkdir "$work/few"
    for tool in sh bash env cat readlink realpath find sort xargs sha256sum cut touch mkdir rm mv cp sleep flock setsid; do
        [ "$tool" = "$1" ] || ! type -P "$tool" >/dev/null || ln -s "$(type -P "$tool")" "$work/few/$tool"
    done
    echo "$work/few"
}

# Runs the launcher of the small repository with a path of its own.
start_with() { # PATH WORD..
    local path=$1
    shift
    (cd "$place/caller" && COUNTS=$place/counts PATH=$path attempt "$place/repo/ptides" "$@"; exit "$status")
    status=$?
}

# --- scripts end if they can't make their folder, and leave none behind

scripts_that_make_a_folder() {
    grep -lE '^ *make_work$|testing\.sh"$' tools/*.sh bench/*.sh | grep -vxF -e tools/common.sh -e tools/test-tools.sh -e tools/testing.sh
}

test_temporary_folders() {
    local script before
    expect 'one place makes temporary folders' tools/common.sh "$(grep -lE '\$\(mktemp' .ci/run tools/*.sh bench/*.sh | grep -vxF tools/test-tools.sh)"
    # shellcheck disable=SC2012
    before=$(ls -A / | sort)
    for script in $(scripts_that_make_a_folder); do
        attempt env TMPDIR="$work/none" HOME="$work/none" "$script"
        expect_refusal "$script without a temporary folder" 1 "$work/none"
    done
    # shellcheck disable=SC2012
    expect 'nothing came and went in /' "$before" "$(ls -A / | sort)"
    mkdir -p "$work/caller/a b"
    attempt env -C "$work/caller" TMPDIR='a b' "$top/tools/test-completion.sh"
    expect_pass 'a temporary folder that is named from the current one'
    expect 'it is empty again' '' "$(ls -A "$work/caller/a b")"
    env TMPDIR="$work/caller" tools/test-launcher.sh >/dev/null 2>&1 &
    sleep 0.5
    kill "$!"
    wait "$!"
    expect 'a script that is ended: status' 143 $?
    expect 'a script that is ended removes its folder' 'a b' "$(ls -A "$work/caller")"
}

# --- settings send nothing elsewhere

test_settings() {
    local tool setting settings decoy=$work/decoy
    mkdir -p "$decoy"/{tools,bench,.ci,completions,examples,crates/ptides}
    attempt tools/check-docs.sh
    expect_pass 'tools/check-docs.sh'
    cp "$work/output" "$work/plain"
    for setting in "CDPATH=$decoy" 'CDPATH=:/' LC_ALL=C.UTF-8 LANG=tr_TR.UTF-8 POSIXLY_CORRECT=1 "PATH=.:$decoy:$PATH" TMPDIR=; do
        attempt env "$setting" sh ptides -C examples/basic run graph.json
        expect_output "the launcher with $setting" "$(cat examples/basic/expected.csv)"
    done
    for settings in "CDPATH=$decoy LANG=tr_TR.UTF-8 TMPDIR=" "CDPATH=:/ LC_ALL=C.UTF-8 POSIXLY_CORRECT=1 PATH=.:$decoy:$PATH"; do
        # shellcheck disable=SC2086
        attempt env $settings tools/check-docs.sh
        expect_output "tools/check-docs.sh with $settings" "$(cat "$work/plain")"
    done
    for tool in tools/test-completion.sh tools/test-launcher.sh; do
        attempt env "CDPATH=$decoy" "$tool"
        expect_pass "$tool with CDPATH"
    done
    attempt env "CDPATH=$decoy" tools/sources-digest.sh x
    expect_output 'tools/sources-digest.sh with CDPATH' "$(tools/sources-digest.sh x)"
    expect 'nothing was put elsewhere' '' "$(find "$decoy" -type f)"
}

# --- the launcher on a small repository

test_stale_programs() {
    local without
    repository
    start run x
    echo 'fn main() { }' >"$place/repo/crates/ptides/src/main.rt"
    for tool in find readlink sort xargs sha256sum; do
        without=$(tools_without "$tool")
        start_with "$without" run x
        expect "a stale program without $tool and without the toolchain" 70 "$status"
        expect "it isn't run" '' "$(cat "$work/output")"
    done
    without=$(tools_without find)
    start_with "$place/bin:$without" run x
    expect_refusal 'a stale program without find' 70 'find is missing'
    # As of a system whose find has only what POSIX says.
    cat >"$without/find" <<'FIND'
#!/bin/sh
case " $* " in
    *' -cnewer '*) echo "find: unrecognized: -cnewer" >&2; exit 1 ;;
esac
exec /usr/bin/find "$@"
FIND
    chmod +x "$without/find"
    start_with "$place/bin:$without" run x
    expect_refusal 'a stale program without -cnewer' 70 'has no -cnewer'
    shipped_repository
    start_with "$without" run x
    expect_output 'what is shipped, without -cnewer' 'shipped:2 run x'
    start_with "$without" run y
    expect_output 'and once more' 'shipped:2 run y'
    echo 'fn main() { }' >"$place/repo/crates/ptides/src/main.rt"
    start_with "$without" run x
    expect 'a stale one, without -cnewer' 70 "$status"
    expect 'a stale one, without -cnewer: it is not run' '' "$(cat "$work/output")"
}

test_missing_tools() {
    local tool
    for tool in sha256sum find sort xargs cut; do
        shipped_repository
        start_with "$(tools_without "$tool")" run x
        expect_refusal "what is shipped, without $tool" 70 "$tool is not on the path"
    done
    start_with '' run x
    expect_refusal 'with an empty path' 70 'is not on the path'
    expect 'nothing is made' '' "$(ls -A "$place/repo/out" 2>/dev/null)"
}

# Which of the processes, whose numbers are in the file, are there and haven't ended. Without setsid only the toolchain itself,
# the first, is ended; the true one takes along what it started.
still_there() { # FILE
    local numbers number
    read -ra numbers <"$1"
    command -v setsid >/dev/null || numbers=("${numbers[0]}")
    for number in "${numbers[@]}"; do
        ! grep -q '^State:[[:space:]]*[^Z[:space:]]' "/proc/$number/status" 2>/dev/null || echo "$number"
    done
}

test_ended_builds() {
    local signal left number wanted
    for signal in TERM:143 INT:130 HUP:129 KILL:137; do
        repository
        # In the background a shell ignores INT, and HUP if it was started so; env has them back.
        (cd "$place/caller" && exec env --default-signal=INT,HUP,TERM COUNTS="$place/counts" BUILD_SECONDS=60 PATH="$place/bin:$PATH" \
            "$place/repo/ptides" run x) >"$work/output" 2>"$work/notes" &
        number=$!
        until [ -s "$place/counts.running" ]; do sleep 0.1; done
        kill -s "${signal%:*}" "$number"
        wait "$number" 2>/dev/null
        wanted=$?
        expect "ended by ${signal%:*} while it builds: status" "${signal#*:}" "$wanted"
        # What was killed can't end others at once: the process that writes dots does, when it writes the next.
        [ "$signal" != KILL:137 ] || sleep 5
        sleep 0.3
        left=$(still_there "$place/counts.running")
        expect "ended by ${signal%:*} while it builds: what goes on" '' "$left"
        [ "$signal" = KILL:137 ] || expect "ended by ${signal%:*}: what is left in out/" 'build.log lock' "$(cd "$place/repo/out" && echo *)"
    done
    start run x
    expect 'after that it builds' 0 "$status"
}

test_ended_while_it_waits() {
    local first second
    command -v flock >/dev/null || { skip 'a start that waits for another, since flock is not there'; return; }
    repository
    (cd "$place/caller" && exec env COUNTS="$place/counts" BUILD_SECONDS=3 PATH="$place/bin:$PATH" "$place/repo/ptides" run 1) \
        >"$place/first" 2>/dev/null &
    first=$!
    until [ -s "$place/counts.running" ]; do sleep 0.1; done
    (cd "$place/caller" && exec env COUNTS="$place/counts" PATH="$place/bin:$PATH" "$place/repo/ptides" run 2) >/dev/null 2>&1 &
    second=$!
    sleep 0.5
    kill "$second"
    wait "$second" 2>/dev/null
    expect 'a start that waits for another is ended' 143 $?
    wait "$first"
    expect 'the other goes on' 0 $?
    expect 'and runs' 'words:2 run 1' "$(head -n 1 "$place/first")"
}

test_links() {
    local way PATH=$place/bin:$PATH
    export COUNTS=$place/counts
    shipped_repository
    mkdir "$place/caller/a b"
    ln -s ../repo/ptides "$place/caller/relative"
    ln -s ../relative "$place/caller/a b/twice"
    ln -s "$place/repo" "$place/caller/folder"
    for way in 'sh relative' './relative' 'sh -- relative' './folder/ptides' 'sh folder/ptides' 'bash relative'; do
        # shellcheck disable=SC2086
        attempt env -C "$place/caller" $way run x
        expect_output "$way" 'shipped:2 run x'
    done
    attempt env -C "$place/caller/a b" sh twice run x
    expect_output 'a link to a link' 'shipped:2 run x'
    attempt env -C "$place/repo" sh ptides run x
    expect_output 'sh ptides' 'shipped:2 run x'
    attempt env -C / PATH="$place/caller/a b:$PATH" twice run x
    expect_output 'from the path' 'shipped:2 run x'
    attempt env -C / PATH="$place/caller/a b:$PATH" bash twice run x
    expect_output 'bash with a name from the path' 'shipped:2 run x'
    attempt env -C "$place/caller/a b" PATH=":$PATH" twice run x
    expect_output 'from the current folder, which is on the path' 'shipped:2 run x'
    attempt env -C "$place/caller" PATH="$(tools_without readlink)" sh relative run x
    expect_refusal 'a link without readlink' 70 readlink
}

test_copies_of_the_launcher() {
    mkdir "$work/alone"
    cp ptides "$work/alone"
    for words in 'run graph.json' --help --version ''; do
        # shellcheck disable=SC2086
        attempt "$work/alone/ptides" $words
        expect_refusal "a copy of the launcher: $words" 70 'belongs in its clone'
    done
    expect 'and nothing is made' ptides "$(ls -A "$work/alone")"
    cp dist/ptides "$work/alone/program"
    attempt env -C examples/basic "$work/alone/program" run graph.json
    expect_output 'a copy of the program' "$(cat examples/basic/expected.csv)"
}

# --- a clone at an odd place

# Its path has a space, quotes, newlines, a variable, a back-quote and what a shell would run.
odd=$work/$'a b\'"\n$HOME `touch owned` $(touch owned) ; [x] \\n\n'

test_odd_path() {
    copy_of_the_clone "$odd"
    attempt "$odd/ptides" -C "$odd/examples/basic" run graph.json
    expect_output 'the launcher in an odd place' "$(cat examples/basic/expected.csv)"
    attempt "$odd/ptides" --version
    expect 'the version in an odd place' "ptides $(cat VERSION)" "$(head -n 1 "$work/output")"
    attempt env -C "$odd" ./ptides --help
    expect 'the help in an odd place' 0 "$status"
    expect 'the help in an odd place: notes' '' "$(cat "$work/notes")"
    for script in tools/check-examples.sh tools/test-completion.sh tools/test-launcher.sh; do
        attempt env -C "$work/caller" TMPDIR="$odd" "$odd/$script"
        expect_pass "$script in an odd place"
    done
    expect 'tools/sources-digest.sh in an odd place' "$(tools/sources-digest.sh x)" "$("$odd/tools/sources-digest.sh" x)"
    expect 'nothing in the path was run' '' "$(find "$work" "$top" -name owned -not -path '*/.git/*')"
    expect 'nothing is left in the odd place' '' "$(cd "$odd" && echo tmp.* | grep -v '[*]')"
    ln -s "$odd/tools/check-docs.sh" "$work/caller/check"
    attempt env -C "$work/caller" bash check
    expect_pass 'tools/check-docs.sh in an odd place, by a link'
}

# --- a clone that can't be written, of another user

# Runs a command as a user who may write nothing here but $work/own.
as_another() { # COMMAND..
    if [ "$(id -u)" -eq 0 ]; then
        attempt setpriv --reuid=65534 --regid=65534 --clear-groups env HOME=/none TMPDIR="$work/own" PATH="${PATH//$HOME/none}" "$@"
    else
        attempt env TMPDIR="$work/own" "$@"
    fi
}

test_read_only() {
    local script
    if [ "$(id -u)" -eq 0 ] && ! setpriv --reuid=65534 --regid=65534 --clear-groups true 2>/dev/null; then
        skip 'another user, since setpriv is not there or not permitted'
        return
    fi
    chmod -R a-w,a+rX "$odd"
    chmod a+x "$work"
    mkdir -m 777 "$work/own"
    as_another "$odd/ptides" -C "$odd/examples/basic" run graph.json
    expect_output 'the launcher in a clone that cannot be written' "$(cat examples/basic/expected.csv)"
    as_another "$odd/tools/check-examples.sh" "$odd/dist/ptides"
    expect_pass 'tools/check-examples.sh in a clone that cannot be written'
    for script in tools/test-completion.sh tools/test-launcher.sh; do
        as_another "$odd/$script"
        expect_pass "$script in a clone that cannot be written"
    done
    expect 'nothing is left behind' '' "$(ls -A "$work/own")"
    as_another "$odd/tools/install.sh" "$work/own/prefix"
    expect 'an install from a clone that cannot be written' 0 "$status"
    as_another "$odd/tools/install.sh" --uninstall "$work/own/prefix"
    expect 'and nothing is left of it' '' "$(ls -A "$work/own")"
}

test_read_only_mount() {
    if ! command -v mount >/dev/null || ! unshare -m true 2>/dev/null; then
        skip 'a mount that can only be read, since no mount is there or permitted'
        return
    fi
    mkdir "$work/mount"
    # shellcheck disable=SC2016
    attempt unshare -m sh -c 'mount --bind "$1" "$2" && mount -o remount,bind,ro "$2" && exec "$2/ptides" -C "$2/examples/basic" run graph.json' \
        sh "$top" "$work/mount"
    expect_output 'the launcher on a mount that can only be read' "$(cat examples/basic/expected.csv)"
    # shellcheck disable=SC2016
    attempt unshare -m sh -c 'mount --bind "$1" "$2" && mount -o remount,bind,ro "$2" && exec "$2/tools/check-examples.sh" "$2/dist/ptides"' \
        sh "$top" "$work/mount"
    expect_pass 'tools/check-examples.sh on a mount that can only be read'
}

# --- what a look at the scripts shows

# All shell scripts, by their names or their first lines.
scripts() {
    local file
    while IFS= read -r file; do
        case $file in
            *.sh | *.bash) echo "$file" ;;
            *) ! head -n 1 "$file" | grep -qaE '^#!.*[ /](ba|da)?sh( |$)' || echo "$file" ;;
        esac
    done < <(find ptides .ci bench completions examples tools -type f -size -200k)
}

test_scripts() {
    local files
    mapfile -t files < <(scripts)
    expect 'scripts that are found' '.ci/run ptides tools/install.sh' \
        "$(printf '%s\n' "${files[@]}" | grep -xE 'ptides|\.ci/run|tools/install\.sh' | sort | tr '\n' ' ' | sed 's/ $//')"
    if command -v shellcheck >/dev/null; then
        attempt shellcheck "${files[@]}"
        expect 'shellcheck' '' "$(cat "$work/output" "$work/notes")"
    else
        skip 'shellcheck, since it is not there'
    fi
    expect 'the version is three numbers' 1 "$(grep -cxE '[0-9]+\.[0-9]+\.[0-9]+' VERSION)"
    expect 'the first release of CHANGELOG.md' "## $(cat VERSION)" "$(grep -m 1 '^## [0-9]' CHANGELOG.md)"
}

test_scripts
test_temporary_folders
test_settings
test_stale_programs
test_missing_tools
test_ended_builds
test_ended_while_it_waits
test_links
test_copies_of_the_launcher
test_odd_path
test_read_only
test_read_only_mount
echo "$passed passed, $failed failed, $skipped skipped"
[ "$failed" -eq 0 ]
