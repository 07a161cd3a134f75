#!/usr/bin/env bash
# Tests the launcher ./ptides and tools/ship.sh on a small repository with a toolchain of its own, which "builds" a shell
# script. It proves nothing and takes some seconds. The last line is `N passed, M failed, K skipped`.
set -u
here=$(realpath -- "$0") || exit 1
. "${here%/*}/testing.sh"

repository
start run 'a b' c
expect 'the first start builds' 1 "$(builds)"
expect 'the first start: status' 0 "$status"
expect 'the first start: output' $'words:3 run a b c\nfolder:caller' "$(cat "$place/output")"
expect 'the first start says that it builds' 1 "$(grep -c '^ptides: proving' "$place/notes")"
expect 'the program'\''s note' 'a note' "$(tail -n 1 "$place/notes")"

start run x
expect 'the second start does not build' 1 "$(builds)"
expect 'the second start: output' $'words:2 run x\nfolder:caller' "$(cat "$place/output")"
expect 'the second start: notes' 'a note' "$(cat "$place/notes")"
start
expect 'no words' 'words:0 ' "$(head -n 1 "$place/output")"

PROGRAM_STATUS=5 start run x
expect 'the program'\''s status' 5 "$status"

touch "$place/repo/crates/ptides/src/main.rt"
start run x
expect 'a changed source is built again' 2 "$(builds)"
mkdir -p "$place/repo/crates/ptides/proofs"
touch "$place/repo/crates/ptides/proofs/Lib.antt"
start run x
expect 'a new file is built again' 3 "$(builds)"
rm "$place/repo/crates/ptides/proofs/Lib.antt"
start run x
expect 'a file that is gone is built again' 4 "$(builds)"
touch "$place/repo/crates.txt"
start run x
expect 'a changed list of crates is built again' 5 "$(builds)"
start run x
expect 'and then no more' 5 "$(builds)"

touch "$place/repo/crates.txt"
BUILD_FAILS=1 start run x
expect 'a failed build: status' 70 "$status"
expect 'a failed build: output' '' "$(cat "$place/output")"
expect 'a failed build: last line' 'ptides: the program could not be built; out/build.log says why' \
    "$(tail -n 1 "$place/notes")"
start run x
expect 'after a failed build it builds again' 0 "$status"

repository
rm "$place/bin/rt"
start_alone run x
expect 'without the toolchain: status' 70 "$status"
expect 'without the toolchain: one line' 1 "$(wc -l <"$place/notes" | tr -d ' ')"

repository
export COUNTS=$place/counts
# The toolchain of the small repository doesn't wait for another run of itself, as the true one does.
starts='1 2 3 4'
if ! command -v flock >/dev/null; then
    skip 'four starts at once, since flock is not there'
    starts=1
fi
for number in $starts; do
    (cd "$place/caller" && BUILD_SECONDS=1 PATH="$place/bin:$PATH" "$place/repo/ptides" run "$number" >"$place/output.$number" 2>&1
        echo $? >"$place/status.$number") &
done
wait
for number in $starts; do
    expect "start $number of four: status" 0 "$(cat "$place/status.$number")"
    expect "start $number of four: words" 1 "$(grep -c "^words:2 run $number$" "$place/output.$number")"
done
expect 'four starts at once build once' 1 "$(builds)"

ln -s "$place/repo/ptides" "$place/caller/short"
(cd "$place/caller" && PATH="$place/bin:$PATH" ./short run x) >"$place/output" 2>"$place/notes"
expect 'through a link' $'words:2 run x\nfolder:caller' "$(cat "$place/output")"
expect 'nothing but the program is left beside the log and the lock' 'build.log lock ptides' \
    "$(cd "$place/repo/out" && echo *)"

shipped_repository
start run 'a b'
expect 'the shipped program runs at once' 'shipped:2 run a b' "$(cat "$place/output")"
expect 'the shipped program: nothing is built' 0 "$(builds)"
expect 'the shipped program: no notes' '' "$(cat "$place/notes")"
expect 'the first start asks for the version' 1 "$(askings)"
PROGRAM_STATUS=5 start run x
expect 'the shipped program: its status' 5 "$status"
expect 'the second start remembers' 1 "$(askings)"
expect 'only what is remembered is left in out/' shipped "$(cd "$place/repo/out" && echo *)"
touch "$place/repo/crates/ptides/src/main.rt"
start run x
expect 'a source of the same text and a later date: shipped' 'shipped:2 run x' "$(cat "$place/output")"
expect 'and it was looked at again' 2 "$(askings)"
cp -p "$place/repo/crates/ptides/src/main.rt" "$place/caller/main.rt"
echo 'fn main() { }' >"$place/repo/crates/ptides/src/main.rt"
touch -r "$place/caller/main.rt" "$place/repo/crates/ptides/src/main.rt"
start run x
expect 'another text with the old date: built' 'words:2 run x' "$(head -n 1 "$place/output")"
expect 'another text: the notes say so' 1 \
    "$(grep -c '^ptides: dist/ptides was built from other sources' "$place/notes")"
expect 'another text: the notes say that it builds' 1 "$(grep -c '^ptides: proving' "$place/notes")"
cp "$place/caller/main.rt" "$place/repo/crates/ptides/src/main.rt"
start run x
expect 'the old text again: shipped, since the build is older' 'shipped:2 run x' "$(cat "$place/output")"

shipped_repository
start_alone run x
expect 'shipped, without the toolchain: output' 'shipped:2 run x' "$(cat "$place/output")"
expect 'shipped, without the toolchain: status' 0 "$status"
echo 'fn main() { }' >"$place/repo/crates/ptides/src/main.rt"
start_alone run x
expect 'a stale one, without the toolchain: status' 70 "$status"
expect 'a stale one, without the toolchain: output' '' "$(cat "$place/output")"
expect 'a stale one, without the toolchain: two lines' 2 "$(wc -l <"$place/notes" | tr -d ' ')"

for change in 'mv src/main.rt src/first.rt' 'touch src/more.rt' 'mkdir specs && touch specs/More.antt' 'rm src/main.rt'; do
    shipped_repository
    start_alone run x
    (cd "$place/repo/crates/ptides" && eval "$change")
    start_alone run x
    expect "stale after $change" 70 "$status"
done
repository
mkdir "$place/repo/crates/ptides/proofs"
touch "$place/repo/crates/ptides/proofs/Lib.antt"
ship
rm -r "$place/repo/out" 2>/dev/null
start_alone run x
expect 'with a folder of proofs' 0 "$status"
rm -r "$place/repo/crates/ptides/proofs"
start_alone run x
expect 'stale after a folder is gone' 70 "$status"
shipped_repository
echo 'more:' >>"$place/repo/crates.txt"
start_alone run x
expect 'stale after a change of crates.txt' 70 "$status"
shipped_repository
mkdir "$place/repo/crates/ptides/must-fail"
echo 'file: src/main.rt' >"$place/repo/crates/ptides/must-fail/other.edit"
start_alone run x
expect 'a must-fail edit goes into no program' 0 "$status"

shipped_repository
start run x
echo '# altered' >>"$place/repo/dist/ptides"
start run x
expect 'an altered program is not run' 'words:2 run x' "$(head -n 1 "$place/output")"
expect 'an altered program: the notes say so' 1 "$(grep -c 'is not the program that was shipped' "$place/notes")"
rm -r "$place/repo/out"
start_alone run x
expect 'an altered program, without the toolchain' 70 "$status"

shipped_repository
sed -i '/^sources/d' "$place/repo/dist/ptides.record"
start_alone run x
expect 'a record without sources' 70 "$status"
rm "$place/repo/dist/ptides.record"
start_alone run x
expect 'no record' 70 "$status"

shipped_repository
start run x
touch "$place/bin/rt"
KIT='rattle-kit-2 logic 0' start run x
expect 'another kit of the same logic runs what is shipped' 'shipped:2 run x' "$(cat "$place/output")"
touch "$place/bin/rt"
KIT='rattle-kit-2 logic 1' start run x
expect 'another toolchain builds' 'words:2 run x' "$(head -n 1 "$place/output")"

shipped_repository
printf '#!/bin/sh\necho "usage: rt COMMAND"\n' >"$place/bin/rt"
start run x
expect 'another program of the name rt is no toolchain' 'shipped:2 run x' "$(cat "$place/output")"

shipped_repository
mv "$place/repo/dist" "$place/dist"
start run x
mv "$place/dist" "$place/repo/dist"
start run x
expect 'what is built goes before what is shipped' 'words:2 run x' "$(head -n 1 "$place/output")"
expect 'and is built once' 1 "$(builds)"

shipped_repository
touch "$place/repo/out"
start run x
expect 'if out/ cannot be made: shipped' 'shipped:2 run x' "$(cat "$place/output")"
expect 'if out/ cannot be made: no notes' '' "$(cat "$place/notes")"

repository
ship --check
expect 'nothing shipped is nothing to check' 0 $?
ship
expect 'ship builds' 0 $?
expect 'ship builds once' 1 "$(builds)"
start_alone run x
expect 'what ship shipped runs' 'words:2 run x' "$(head -n 1 "$place/output")"
ship --check
expect 'check: what is shipped is what was built' 0 $?
echo 9.9.9 >"$place/repo/VERSION"
ship --check
expect 'check: another version' 1 $?
expect 'check: another version is named' 1 "$(grep -c 'is not of the version 9.9.9' "$place/shipping")"
echo nine >"$place/repo/VERSION"
ship
expect 'ship: no version' 1 $?
cp "$top/VERSION" "$place/repo"
expect 'the record' 'version sources toolchain program' "$(cut -d ' ' -f 1 "$place/repo/dist/ptides.record" | tr '\n' ' ' | sed 's/ $//')"
echo '# another build' >>"$place/repo/crates/ptides/out/ptides"
printf '#!/bin/sh\necho "$*" >examined\nexit 0\n' >"$place/repo/tools/check-examples.sh"
chmod +x "$place/repo/tools/check-examples.sh"
ship --check
expect 'check: another build goes through the examples' 0 $?
expect 'check: with the shipped program' dist/ptides "$(cat "$place/repo/examined")"
printf '#!/bin/sh\nexit 1\n' >"$place/repo/tools/check-examples.sh"
ship --check
expect 'check: another build that answers otherwise' 1 $?
KIT='rattle-kit-2 logic 1' ship --check
expect 'check: another toolchain' 1 $?
expect 'check: another toolchain is named' 1 "$(grep -c 'this is rattle-kit-2 logic 1' "$place/shipping")"
echo 'proved with rattle-kit-2 logic 0' >"$place/repo/README.md"
ship --check
expect 'check: a README that names another toolchain' 1 $?
echo 'proved with rattle-kit-1 logic 0' >"$place/repo/README.md"
touch "$place/repo/crates/ptides/src/more.rt"
ship --check
expect 'check: a stale record' 1 $?
expect 'check: a stale record is named' 1 "$(grep -c 'is of other sources' "$place/shipping")"
rm "$place/repo/crates/ptides/src/more.rt"
echo '# altered' >>"$place/repo/dist/ptides"
ship --check
expect 'check: an altered program' 1 $?
cp "$place/repo/crates/ptides/out/ptides" "$place/caller/near"
ship --built near
expect 'ship: a path from the folder of the caller' 0 $?
ship --built nowhere
expect 'ship: a file that is not there' 1 $?
ship --built /bin/true
expect 'ship: what answers otherwise is not shipped' 1 $?
ship --other
expect 'ship: other words' 1 $?

# The words that the launcher answers itself. A companion's line is among its first ten, and its name is of plain letters.
companions() {
    cat >"$place/repo/tools/ptides-show" <<'SHOW'
#!/bin/sh
# Shows what it is given.
# ptides: shows what it is given
printf '%s\n' "shown:$# $* by ${PTIDES:-none}" "folder:${PWD##*/}"
exit 9
SHOW
    printf '#!/bin/sh\n# ptides: never listed\n' | tee "$place/repo/tools/ptides-Old~" >"$place/repo/tools/ptides-plain"
    chmod +x "$place/repo/tools/ptides-show" "$place/repo/tools/ptides-Old~"
}

shipped_repository
companions
for word in --help -h help; do
    start_alone "$word"
    expect "$word: status" 0 "$status"
    expect "$word: notes" '' "$(cat "$place/notes")"
    expect "$word: commands" 'run check meaning make migrate slacks audit replay help' \
        "$(sed -n 's/^  \([a-z]*\) [A-Z].*/\1/p' "$place/output" | tr '\n' ' ' | sed 's/ $//')"
    for clock in paced step:START:STEP machine; do
        grep -q -e "\b$clock\b" "$place/output"
        expect "$word: the clock $clock" 0 $?
    done
    expect "$word: companions" '  show ...                 shows what it is given' "$(grep -A 9 'not proved' "$place/output" | grep '^  ')"
    for place_of in docs/ptides.1 examples schemas/graph.schema.json; do
        [[ $(<"$place/output")$'\n' == *" $place/repo/$place_of"$'\n'* ]]
        expect "$word: where $place_of is" 0 $?
    done
done
start_alone help run
expect 'help on a command' '  run GRAPH                writes the events of each actuator' "$(head -n 1 "$place/output")"
expect 'help on a command: its options' 1 "$(grep -c -e ' --clock CLOCK ' "$place/output")"
expect 'help on a command: no other' 0 "$(grep -c -e '^  check GRAPH' "$place/output")"
for word in run check replay; do
    start_alone help "$word"
    expect "help on $word: its formulas" 1 "$(grep -c -e '^  --blocks FILE ' "$place/output")"
done
start_alone help make
expect 'help on make: no formulas' 0 "$(grep -c -e '^  --blocks FILE ' "$place/output")"
start_alone help formulas
expect 'help on formulas: status' 0 "$status"
for word in not abs min max clamp scale if; do
    expect "help on formulas: $word" 1 "$(grep -c -e "\\b$word(" "$place/output")"
done
start_alone help show kind
expect 'help on a part of a companion' "shown:2 kind -h by $place/repo/dist/ptides"$'\nfolder:caller' "$(cat "$place/output")"
for word in shwo showw sho; do
    start_alone help "$word"
    expect "help on $word: status and output" '1 ' "$status $(cat "$place/output")"
    expect "help on $word" "ptides: there is no command or companion \`$word\`; did you mean \`show\`?" "$(cat "$place/notes")"
done
for word in '' 'a b' ../tools/ptides-show something; do
    start_alone help "$word"
    expect "help on \"$word\"" "1 ptides: there is no command or companion \`$word\`; \`ptides help\` lists them" "$status $(cat "$place/notes")"
done
for word in shwo chekc; do
    PROGRAM_STATUS=1 start_alone "$word" x
    expect "did you mean, for $word: the program answers first" "1 shipped:2 $word x" "$status $(cat "$place/output")"
    expect "did you mean, for $word" 1 "$(grep -c -x -F -e "ptides: there is no command or companion \`$word\`; did you mean \`show\`?" \
        -e "ptides: there is no command or companion \`$word\`; did you mean \`check\`?" "$place/notes")"
done
PROGRAM_STATUS=1 start_alone run x
expect 'a command that fails has no hint' '' "$(cat "$place/notes")"
start_alone help show
expect 'help of a companion' "shown:1 -h by $place/repo/dist/ptides"$'\nfolder:caller' "$(cat "$place/output")"
expect 'help of a companion: its status' 9 "$status"

start_alone show 'a b' -x
expect 'a companion' "shown:2 a b -x by $place/repo/dist/ptides"$'\nfolder:caller' "$(cat "$place/output")"
expect 'a companion: its status' 9 "$status"
PTIDES=other start_alone show
expect 'a companion with another program' 'shown:0  by other' "$(head -n 1 "$place/output")"
for word in plain 'Old~' ../tools/ptides-show show/ shows sho '' -- -x --helps; do
    start_alone "$word" x
    expect "no companion, so a word for the program: $word" "shipped:2 $word x" "$(cat "$place/output")"
done
start_alone run --help
expect 'a word of the launcher after a command is the program'\''s' 'shipped:2 run --help' "$(cat "$place/output")"

mkdir -p "$place/caller/a b/-"
start_alone -C 'a b' run x
expect '-C: the program' 'shipped:2 run x' "$(cat "$place/output")"
start_alone -C 'a b' -C - show -C x
expect '-C twice, and a folder with the name -' "shown:2 -C x by $place/repo/dist/ptides"$'\nfolder:-' "$(cat "$place/output")"
start_alone -C "$place/caller/a b/-/../.." show
expect '-C with a path from the top' 'folder:caller' "$(tail -n 1 "$place/output")"
start_alone -C '' show
expect '-C with no name stays' 'folder:caller' "$(tail -n 1 "$place/output")"
start_alone -C 'a b' --help
expect '-C before help' 0 "$status"
ln -s 'a b/-' "$place/caller/link"
start_alone -C link/.. show
expect '-C follows links as the system does' 'folder:a b' "$(tail -n 1 "$place/output")"
for words in '-C' '-C nowhere run x' '-C a'; do
    # shellcheck disable=SC2086
    start_alone $words
    expect "$words: status" 1 "$status"
    expect "$words: one line" '1 ptides: -C' "$(wc -l <"$place/notes" | tr -d ' ') $(cut -c 1-10 "$place/notes")"
    expect "$words: output" '' "$(cat "$place/output")"
done

# The version of what would run. Nothing is built for it.
version_is() { # WHAT TOOLCHAIN PROGRAM
    expect "$1: status" 0 "$status"
    expect "$1: notes" '' "$(cat "$place/notes")"
    expect "$1: nothing is built" "$built_before" "$(builds)"
    expect "$1" "ptides $(cat "$top/VERSION")"$'\n'"sources $("$place/repo/tools/sources-digest.sh" "$2")"$'\n'"toolchain $2"$'\n'"program $3" \
        "$(cat "$place/output")"
}

built_before=0
for word in --version -V; do
    start_alone "$word"
    version_is "$word, shipped" 'rattle-kit-1 logic 0' 'dist/ptides, shipped'
done
sed -i '/^version/d' "$place/repo/dist/ptides.record"
start_alone run x
expect 'a record without a version' 'shipped:2 run x' "$(cat "$place/output")"
start --version
version_is 'the version with a record that has none' 'rattle-kit-1 logic 0' 'dist/ptides, shipped'
echo 'fn main() { }' >"$place/repo/crates/ptides/src/main.rt"
KIT='rattle-kit-3 logic 7' start --version
version_is 'the version of what is not built yet' 'rattle-kit-3 logic 7' 'none yet: the next command builds it'
start run x
built_before=1
start -V
version_is 'the version of what was built' 'rattle-kit-1 logic 0' 'out/ptides, built here'
start show
expect 'a companion is given what was built' "shown:0  by $place/repo/out/ptides"$'\nfolder:caller' "$(cat "$place/output")"
touch "$place/repo/crates/ptides/src/main.rt"
start show
expect 'a companion is given the launcher if there is no program yet' "shown:0  by $place/repo/ptides"$'\nfolder:caller' "$(cat "$place/output")"

echo "$passed passed, $failed failed, $skipped skipped"
[ "$failed" -eq 0 ]
