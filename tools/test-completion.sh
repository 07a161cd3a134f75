#!/usr/bin/env bash
# Tests completions/ptides.bash: what it offers for words, in a folder with a graph. The last line is `N passed, M failed`.
set -u
here=$(realpath -- "$0") || exit 1
. "${here%/*}/common.sh"
passed=0
failed=0
. "${here%/*}/../completions/ptides.bash"

# A launcher with two companions, called by a link. What is on the path can't have a colon.
case ${TMPDIR-} in
    *:*) TMPDIR=/tmp ;;
esac
make_work
mkdir -p "$work/home/tools" "$work/bin"
touch "$work/home/ptides" "$work/home/tools/ptides-"{lint,dot,none,'a b'}
chmod +x "$work/home/ptides" "$work/home/tools/ptides-"{lint,dot,'a b'}
ln -s ../home/ptides "$work/bin/ptides"
PATH=$work/bin:$PATH
cd examples/governor || exit 1

# offers WORDS WANTED: what is offered for the last of the words, in order, parted by spaces. `=` is a word of its own.
offers() {
    local found
    read -ra COMP_WORDS <<<"$1"
    [[ $1 != *' ' ]] || COMP_WORDS+=('')
    COMP_CWORD=$((${#COMP_WORDS[@]} - 1))
    _ptides
    found=$(printf '%s\n' "${COMPREPLY[@]}" | sort -V | tr '\n' ' ')
    if [ "$found" = "$2 " ]; then
        passed=$((passed + 1))
    else
        failed=$((failed + 1))
        printf 'failed: for "%s": wanted %s, found %s\n' "$1" "$2" "$found"
    fi
}

offers 'ptides ' 'audit check dot help lint make meaning migrate replay run slacks'
offers 'ptides me' 'meaning'
offers 'ptides -' '-C --help --version'
offers 'ptides l' 'lint'
offers 'ptides help ' 'audit check dot formulas lint make meaning migrate replay run slacks'
offers 'ptides lint ' 'graph.json'
offers 'ptides lint --' '--blocks --claims --help --strict --version'
offers 'ptides timing --m' '--markdown'
offers 'ptides timing --markdown --o' '--only'
offers 'ptides rows c' 'can candump csv'
offers 'ptides rows csv --st' '--stamp --start'
offers 'ptides rows candump --by' '--bytes'
offers 'ptides rows candump rows.p' 'rows.py'
offers 'ptides wave --tr' '--trace'
offers 'ptides wave re' 'replay'
offers 'ptides wave gr' 'graph.json'
offers 'ptides wave replay gr' 'graph.json'
offers 'ptides explain me' 'meaning'
offers 'ptides probe graph.json g' 'gov'
offers 'ptides -C .. probe governor/graph.json err l' 'lead'
offers 'ptides -C .. bench gov' 'governor'
offers 'ptides -C .. report gov' 'governor'
offers 'ptides bench gr' 'graph.json'
offers 'ptides report run gr' 'graph.json'
offers 'ptides bench --junit READ' 'README.md'
offers 'ptides -C .. report governor li' 'line'
offers 'ptides lint READ' 'README.md'
offers 'no-launcher ' 'audit check help make meaning migrate replay run slacks'
offers 'ptides -C ../gov' '../governor'
offers 'ptides -C .. r' 'replay run'
offers 'ptides -C .. -C li' 'line'
offers 'ptides -C .. -C line run ' 'graph.json'
offers 'ptides -C .. run line/g' 'line/graph.json'
offers 'ptides run ' 'graph.json'
offers 'ptides check g' 'graph.json'
offers 'ptides check ../gov' '../governor'
offers 'ptides run --' '--blocks --claims --clock --log --workers'
offers 'ptides run graph.json --log -' '--blocks --claims --clock --workers'
offers 'ptides check -' '--blocks'
offers 'ptides audit ' 'graph.json'
offers 'ptides audit graph.json -' '--blocks --claims'
offers 'ptides meaning -' '--blocks --claims'
offers 'ptides migrate -' '--blocks'
offers 'ptides slacks -' '--blocks'
offers 'ptides audit graph.json expected.l' 'expected.log'
offers 'ptides -C .. audit governor/graph.json governor/expected.l' 'governor/expected.log'
offers 'ptides replay ' 'graph.json'
offers 'ptides replay -' '--blocks --claims --log --workers'
offers 'ptides replay graph.json speed.c' 'speed.csv'
offers 'ptides replay --log g' 'graph.json'
offers 'ptides replay --workers 4 g' 'graph.json'
offers 'ptides replay --workers = 4 g' 'graph.json'
offers 'ptides replay --workers = 4 graph.json sp' 'speed.csv'
offers 'ptides replay graph.json --log -' '--blocks --claims --workers'
offers 'ptides replay graph.json --workers 6' '6 60 61 62 63 64'
offers 'ptides -C .. replay governor/graph.json governor/sp' 'governor/speed.csv'
offers 'ptides make 10' '10 100'
offers 'ptides make 7 -' '--workers'
offers 'ptides run --claims 10' '1000000 10000000 100000000'
offers 'ptides run --claims = 1000000' '1000000 10000000 100000000'
offers 'ptides replay --claims 4000000 graph.json sp' 'speed.csv'
offers 'ptides audit --claims = 4000000 graph.json expected.l' 'expected.log'
offers 'ptides run --workers 6' '6 60 61 62 63 64'
offers 'ptides run --workers = 6' '6 60 61 62 63 64'
offers 'ptides run --clock ' 'machine paced step:'
offers 'ptides run --clock =' 'machine paced step:'
offers 'ptides run --clock st' 'step:'
offers 'ptides run --clock = m' 'machine'
offers 'ptides run --clock step :' ''
offers 'ptides run --clock step : 0' ''
offers 'ptides run --clock step : 0 : 1' ''
# Files of formulas, and folders. In `--blocks=FILE` the `=` is a word of its own.
mkdir -p "$work/formulas/brakes"
touch "$work/formulas/"{brake.blocks,wheel.blocks,graph.json,run.log}
cd "$work/formulas" || exit 1
offers "ptides run --blocks " 'brake.blocks brakes wheel.blocks'
offers "ptides run --blocks = br" 'brake.blocks brakes'
offers "ptides check graph.json --blocks w" 'wheel.blocks'
offers "ptides lint graph.json --blocks w" 'wheel.blocks'
offers "ptides probe graph.json --blocks = w" 'wheel.blocks'
offers "ptides wave --blocks ru" 'run.log'
offers "ptides audit --blocks wheel.blocks graph.json r" 'run.log'
offers "ptides audit --blocks wheel.blocks gr" 'graph.json'
offers "ptides run graph.json --blocks wheel.blocks --l" '--log'
offers 'ptides make 7 --b' ''
echo "$passed passed, $failed failed"
[ "$failed" -eq 0 ]
