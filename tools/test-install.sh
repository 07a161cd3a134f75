#!/usr/bin/env bash
# Tests tools/install.sh: an install into a fresh prefix, the manual page and the completion of it, and what it leaves alone. What
# isn't installed is skipped by name. The last line is `N passed, M failed, K skipped`.
set -u
here=$(realpath -- "$0") || exit 1
. "${here%/*}/testing.sh"

clone=$work/clone
prefix="$work/a prefix"
page=examples/basic

# A clone with a companion of its own, which writes which program it would ask.
make_clone() {
    copy_of_the_clone "$clone"
    rm -f "$clone"/tools/ptides-*
    cat >"$clone/tools/ptides-show" <<'SHOW'
#!/bin/sh
# ptides: shows what it is given
printf '%s\n' "shown:$* by $PTIDES"
SHOW
    chmod +x "$clone/tools/ptides-show"
}

# All that is in a folder, with its contents.
contents() { # FOLDER
    (cd "$1" && find . -exec ls -ld --time-style=+ {} + -type f -exec sha256sum {} +)
}

# Types into a real bash, which has the prefix on its path and has read its completion. Writes what bash shows.
type_into_bash() { # TEXT
    python3 - "$prefix" "$1" <<'PY'
import os, pty, select, sys, time
prefix, text = sys.argv[1:]
child, terminal = pty.fork()
if child == 0:
    os.environ.update(PATH=f"{prefix}/bin:{os.environ['PATH']}", PS1="> ", TERM="dumb", INPUTRC="/dev/null")
    os.chdir(f"{prefix}/share/doc/ptides/examples/basic")
    os.execvp("bash", ["bash", "--norc", "--noprofile", "-i"])
os.write(terminal, f'. "{prefix}/share/bash-completion/completions/ptides"; echo re"a"dy\n'.encode())
shown, typed, end = b"", False, time.time() + 20
while time.time() < end:
    if select.select([terminal], [], [], 1)[0]:
        try:
            shown += os.read(terminal, 4096)
        except OSError:
            break
    if b"ready" in shown and not typed:
        os.write(terminal, text.encode() + b"\nexit\n")
        typed = True
print(shown.decode("utf-8", "replace").replace("\r", ""))
PY
}

test_install() {
    attempt env -C "$work" PATH="/usr/bin:/bin" "$clone/tools/install.sh" 'a prefix'
    expect 'install: status' 0 "$status"
    expect 'install: notes' '' "$(cat "$work/notes")"
    expect 'install: its line' "installed ptides $(cat VERSION) in $prefix" "$(head -n 1 "$work/output")"
    expect 'install: what is on the path' "put $prefix/bin on your PATH" "$(sed -n 2p "$work/output")"
    mv "$clone" "$work/elsewhere"
    attempt env PATH="$prefix/bin:/usr/bin:/bin" ptides -C "$page" run graph.json
    expect_output 'the installed program' "$(cat "$page/expected.csv")"
    attempt env PATH="$prefix/bin:/usr/bin:/bin" ptides no such words
    expect 'the installed program: its status' 1 "$status"
    attempt env PATH="$prefix/bin:/usr/bin:/bin" ptides show 'a b'
    expect_output 'an installed companion' "shown:a b by $prefix/bin/../lib/ptides/program"
    mv "$work/elsewhere" "$clone"
    attempt "$clone/ptides" --version
    head -n 3 "$work/output" >"$work/version"
    attempt "$prefix/bin/ptides" --version
    expect_output 'the installed version' "$(cat "$work/version")"
    expect 'which has three lines' 'ptides sources toolchain' "$(cut -d ' ' -f 1 "$work/version" | tr '\n' ' ' | sed 's/ $//')"
}

test_help() {
    local place
    attempt "$prefix/bin/ptides" --help
    expect 'help: status' 0 "$status"
    expect 'help: the companion' 1 "$(grep -c '^  show \.\.\. *shows what it is given$' "$work/output")"
    for place in share/man/man1/ptides.1 share/doc/ptides/examples share/ptides/graph.schema.json; do
        expect "help: where $place is" 1 "$(grep -c " $prefix/$place\$" "$work/output")"
        expect "$place is there" 0 "$([ -r "$prefix/$place" ]; echo $?)"
    done
    expect 'the columns of air files are there' 0 "$([ -r "$prefix/share/ptides/air.csv-metadata.json" ]; echo $?)"
}

test_manual_page() {
    if ! command -v man >/dev/null; then
        skip 'man ptides, since man is not there'
        return
    fi
    attempt env -u MANPATH PATH="$prefix/bin:$PATH" man -w ptides
    expect_output 'man -w ptides' "$prefix/share/man/man1/ptides.1"
    attempt env -u MANPATH PATH="$prefix/bin:$PATH" MANWIDTH=80 man ptides
    expect 'man ptides: status' 0 "$status"
    expect 'man ptides: its head' 1 "$(head -n 1 "$work/output" | grep -c '^PTIDES(1)')"
}

test_completion() {
    if ! command -v python3 >/dev/null; then
        skip 'the completion in a real bash, since python3 is not there'
        return
    fi
    expect 'completion of a command' "$(sed -n 2p "$page/expected.csv")" \
        "$(type_into_bash $'ptides ru\tgr\t' | grep -xF -- "$(sed -n 2p "$page/expected.csv")")"
    expect 'completion of a companion' 1 "$(type_into_bash $'ptides sh\tgr\t' | grep -c '^shown:graph.json by ')"
    expect 'completion after -C' "$(sed -n 2p "$page/expected.csv")" \
        "$(type_into_bash $'ptides -C ../bas\t run gr\t' | grep -xF -- "$(sed -n 2p "$page/expected.csv")")"
}

test_second_install() {
    contents "$prefix" >"$work/first"
    attempt "$clone/tools/install.sh" "$prefix"
    expect 'a second install: status' 0 "$status"
    contents "$prefix" >"$work/second"
    expect 'a second install leaves the same' '' "$(diff "$work/first" "$work/second")"
    mv "$clone/tools/ptides-show" "$clone/tools/ptides-other"
    attempt "$clone/tools/install.sh" "$prefix"
    expect 'another release: status' 0 "$status"
    expect 'another release: the companions' ptides-other "$(ls "$prefix/lib/ptides/tools")"
}

test_uninstall() {
    echo 'of another program' >"$prefix/share/man/man1/other.1"
    echo '# a line of the user' >>"$prefix/share/doc/ptides/README.md"
    attempt "$clone/tools/install.sh" "$prefix"
    expect_refusal 'an install over a changed file' 1 'share/doc/ptides/README.md'
    attempt "$clone/tools/install.sh" --uninstall "$prefix"
    expect_refusal 'uninstall with a changed file' 0 'share/doc/ptides/README.md was changed'
    expect 'uninstall: what is left' 'share/doc/ptides/README.md share/man/man1/other.1' \
        "$(cd "$prefix" && find . -type f -o -type l | sort | sed 's,^\./,,' | tr '\n' ' ' | sed 's/ $//')"
    rm "$prefix/share/doc/ptides/README.md"
    attempt "$clone/tools/install.sh" "$prefix"
    attempt "$clone/tools/install.sh" "$prefix" --uninstall
    expect_output 'uninstall' ''
    # What the first install made and another program uses now is left; so is what the second one found.
    expect 'uninstall: what is left then' "$(printf '%s\n' . ./share ./share/doc ./share/doc/ptides ./share/man ./share/man/man1 ./share/man/man1/other.1)" \
        "$(cd "$prefix" && find . | sort)"
    attempt "$clone/tools/install.sh" --uninstall "$prefix"
    expect_refusal 'uninstall of nothing' 1 "nothing is installed in $prefix"
    attempt "$clone/tools/install.sh" "$work/fresh"
    attempt "$clone/tools/install.sh" --uninstall "$work/fresh"
    expect_output 'uninstall from a fresh prefix' ''
    expect 'and nothing is left' '' "$(ls -d "$work/fresh" 2>/dev/null)"
}

test_what_is_left_alone() {
    mkdir -p "$work/taken/share/bash-completion/completions"
    echo mine >"$work/taken/share/bash-completion/completions/ptides"
    contents "$work/taken" >"$work/before"
    attempt "$clone/tools/install.sh" "$work/taken"
    expect_refusal 'an install over a file of others' 1 'share/bash-completion/completions/ptides is there'
    expect 'it changes nothing' '' "$(contents "$work/taken" | diff "$work/before" -)"
    # A list that names what is outside of the prefix removes nothing there.
    mkdir -p "$work/bad/lib/ptides"
    echo mine >"$work/mine"
    printf 'file %s %s\n' "$(sha256sum <"$work/mine" | cut -d ' ' -f 1)" ../mine "$(sha256sum <"$work/mine" | cut -d ' ' -f 1)" "$work/mine" \
        >"$work/bad/lib/ptides/files"
    attempt "$clone/tools/install.sh" --uninstall "$work/bad"
    expect 'a list that leads outside' mine "$(cat "$work/mine")"
}

# What was built here goes before what is shipped. Here it has one byte more.
test_built_program() {
    mkdir -p "$clone/out"
    cp "$clone/dist/ptides" "$clone/out/ptides"
    echo >>"$clone/out/ptides"
    attempt env PATH=/usr/bin:/bin "$clone/tools/install.sh" "$work/built"
    expect 'an install of what was built: status' 0 "$status"
    expect 'an install of what was built: the program' 0 "$(cmp "$clone/out/ptides" "$work/built/lib/ptides/program" >&2; echo $?)"
    attempt "$work/built/bin/ptides" -V
    expect_output 'its version' "ptides $(cat VERSION)"$'\nsources unknown\ntoolchain unknown'
    rm "$clone/out/ptides"
}

test_refusals() {
    touch "$work/file"
    attempt "$clone/tools/install.sh" "$work/file/prefix"
    expect 'a prefix that can'\''t be made: status' 1 "$status"
    expect 'a prefix that can'\''t be made: output' '' "$(cat "$work/output")"
    for words in -x 'a b' '--uninstall --other'; do
        # shellcheck disable=SC2086
        attempt "$clone/tools/install.sh" $words
        expect_refusal "install.sh $words" 1 usage
    done
    attempt env -u HOME "$clone/tools/install.sh"
    expect_refusal 'no home' 1 'name a PREFIX'
    attempt "$clone/tools/install.sh" --help
    expect 'install.sh --help' 0 "$status"
    touch "$clone/crates/ptides/src/more.rt"
    attempt env PATH=/usr/bin:/bin "$clone/tools/install.sh" "$work/unbuilt"
    expect_refusal 'sources that are not built' 1 'there is no program of these sources yet'
    expect 'nothing is made' '' "$(ls -d "$work/unbuilt" 2>/dev/null)"
}

make_clone
test_install
test_help
test_manual_page
test_completion
test_second_install
test_uninstall
test_what_is_left_alone
test_built_program
test_refusals
echo "$passed passed, $failed failed, $skipped skipped"
[ "$failed" -eq 0 ]
