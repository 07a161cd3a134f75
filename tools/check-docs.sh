#!/usr/bin/env bash
# Checks that what the documents cite is there: each file, each crate, each `crate::name`, each link to a file or a heading,
# each definition and each clause.
#
# Of the text it reads what is in backticks and the targets of links. A file is looked up from the top, from the
# document's folder, in crates/ and in each crate; `crate::path::name` has to be declared in that crate's src/. tools/check-clauses.py
# looks up the clauses at the functions that are named with them, and tools/check-names.py the definitions. docs/ARCHITECTURE.md
# has a row for each crate, docs/TRUST.md names each library that the program is built with, and docs/BLOCKS.md quotes the program of
# its example. The last line is `N passed, M failed`.
# The back-quotes in the patterns are letters that are looked for.
# shellcheck disable=SC2016
set -u
here=$(realpath -- "$0") || exit 1
. "${here%/*}/common.sh"
passed=0
failed=0

crates=$(sed 's/#.*//; s/[ :].*//' crates.txt | grep -v '^$')

judge() { # document, what it cites, whether that is there
    if [ "$3" -eq 0 ]; then
        passed=$((passed + 1))
    else
        failed=$((failed + 1))
        echo "failed: $1: $2 isn't there"
    fi
}

is_file() { # document, path
    [ -e "$2" ] || [ -e "${1%/*}/$2" ] || [ -e "crates/$2" ] || compgen -G "crates/*/$2" >/dev/null
}

# Whether a document has a heading with this anchor.
is_heading() { # document, path of the link, anchor
    local file=${2:-$1}
    [ -e "$file" ] || file=${1%/*}/$2
    grep '^#' "$file" 2>/dev/null | sed 's/^#* *//' | tr '[:upper:]' '[:lower:]' | sed 's/[^a-z0-9 _-]//g; s/ /-/g' |
        grep -qxF -- "$3"
}

is_crate() {
    grep -qx "$1" <<<"$crates"
}

# Whether a name is declared in src/ of a crate: a function, a type, a member of an enum or a module.
is_declared() { # crate, name
    grep -rqE "\b(fn|struct|enum|trait|mod|type|const) $2\b|^ +$2\b( \{|,|\()" "crates/$1/src" 2>/dev/null
}

check_word() { # document, word
    local word=$2 crate name
    case $word in
        *' '*) ;;
        *::*)
            crate=${word%%::*}
            name=${word##*::}
            name=${name%%(*}
            if is_crate "$crate"; then
                is_declared "$crate" "$name"
                judge "$1" "$word" $?
            elif [[ $crate == pt_* ]]; then
                judge "$1" "$word" 1
            fi
            ;;
        */*.rt | */*.antt | */*.md | */*.sh | */*.json | */*.csv | */*.edit | *.md)
            is_file "$1" "$word"
            judge "$1" "$word" $?
            ;;
        pt_*)
            is_crate "$word"
            judge "$1" "$word" $?
            ;;
    esac
}

# The blocks of code of a document are quoted from the sources of a folder, but for what they are indented by.
check_quotes() { # document, folder
    local sources line first quote='' inside=false
    sources=$'\n'$(sed 's/^ *//' "$2"/*.rt)$'\n'
    while IFS= read -r line; do
        if [ "$line" = '```rust' ]; then
            inside=true
            quote=$'\n'
        elif $inside && [ "$line" = '```' ]; then
            first=${quote#?}
            [[ $sources == *"$quote"* ]]
            judge "$1" "in $2 the code that begins with ${first%%$'\n'*}" $?
            inside=false
        elif $inside; then
            quote+=${line#"${line%%[! ]*}"}$'\n'
        fi
    done <<<"$(<"$1")"
}

# Adds up what a script of this folder counted: its last line is `N passed, M failed`.
count() { # SCRIPT
    local found last
    found=$("$1")
    last=${found##*$'\n'}
    if [[ $last =~ ^([0-9]+)\ passed,\ ([0-9]+)\ failed$ ]]; then
        passed=$((passed + BASH_REMATCH[1]))
        failed=$((failed + BASH_REMATCH[2]))
        head -n -1 <<<"$found"
    else
        failed=$((failed + 1))
        echo "failed: $1 ends with a fault"
    fi
}

for document in ./*.md docs/*.md bench/*.md examples/README.md examples/*/README.md; do
    [ -e "$document" ] || continue
    # Blocks of code show what is typed and printed, and cite nothing.
    prose=$(awk '/^```/ { code = !code; next } !code' "$document")
    while IFS= read -r word; do
        check_word "$document" "$word"
    done < <(grep -oE '`[^`]+`' <<<"$prose" | tr -d '`' | sort -u)
    while IFS= read -r target; do
        is_file "$document" "$target"
        judge "$document" "$target" $?
    done < <(grep -oE '\]\([^)#]+' <<<"$prose" | sed 's/^](//' | grep -v '^http' | sort -u)
    while IFS='#' read -r target anchor; do
        is_heading "$document" "$target" "$anchor"
        judge "$document" "$target#$anchor" $?
    done < <(grep -oE '\]\([^)]*#[^)]+' <<<"$prose" | sed 's/^](//' | grep -v '^http' | sort -u)
done
while IFS= read -r crate; do
    grep -qF -- "| \`$crate\` |" docs/ARCHITECTURE.md
    judge docs/ARCHITECTURE.md "a row for $crate" $?
done <<<"$crates"
while IFS= read -r library; do
    grep -qF -- "\`$library\`" docs/TRUST.md
    judge docs/TRUST.md "the library $library" $?
done < <(sed 's/#.*//; s/^[^:]*://' crates.txt | tr -s ' ' '\n' | grep . | sort -u | grep -vxF -- "$crates")
check_quotes docs/BLOCKS.md crates/slow_blocks/src
tools/count-definitions.py --check
judge docs/PROOF-TOUR.md 'the right count of definitions' $?
count tools/check-clauses.py
count tools/check-names.py
echo "$passed passed, $failed failed"
[ "$failed" -eq 0 ]
