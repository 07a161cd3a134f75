#!/usr/bin/env bash
# Installs ptides:
#
#     tools/install.sh [PREFIX]               into PREFIX, or ~/.local
#     tools/install.sh --uninstall [PREFIX]   takes it out again
#
#   bin/ptides                               a link to the launcher
#   lib/ptides                               the launcher, the program that ./ptides runs here, the companions (tools/), the
#                                            package that they use (python/), what `ptides --version` writes (version),
#                                            and the list of all this (files)
#   lib/python3.*/*-packages                 if there is one, a file `ptides.pth`, by which its Python finds the package
#   share/man/man1                           the manual pages
#   share/bash-completion/completions        the completion
#   share/ptides                             the schemas
#   share/doc/ptides                         the pages and the examples
#
# Nothing that was there before is written over or removed. A file that was changed since the install is left where it is.
set -u
here=$(realpath -- "$0") || exit 1
. "${here%/*}/common.sh"

fail() { # MESSAGE
    echo "install: $1" >&2
    exit 1
}

usage='usage: tools/install.sh [--uninstall] [PREFIX]'
list=lib/ptides/files
todo=install
words=()
for word in "$@"; do
    case $word in
        --uninstall) todo=uninstall ;;
        -h | --help)
            echo "$usage"
            echo 'PREFIX is ~/.local if it is not named, as in: tools/install.sh /usr/local'
            exit
            ;;
        '' | -*) fail "$usage" ;;
        *) words+=("$word") ;;
    esac
done
[ ${#words[@]} -le 1 ] || fail "$usage"
if [ ${#words[@]} -eq 1 ]; then
    prefix=$(of_caller "${words[0]}")
else
    [ -n "${HOME-}" ] || fail 'there is no home folder, so name a PREFIX'
    prefix=$HOME/.local
fi

# The list has a line for each folder that was made, `folder - PATH`, for each file, `file SHA256 PATH`, and for each link,
# `link TARGET PATH`. Paths are meant from the prefix.
line_of() { # FOLDER PATH: what is there now, as a line of the list
    local digest
    if [ -L "$1/$2" ]; then
        printf 'link %s %s\n' "$(readlink -- "$1/$2")" "$2"
    elif [ -f "$1/$2" ]; then
        digest=$(sha256sum <"$1/$2") || return 1
        printf 'file %s %s\n' "${digest%% *}" "$2"
    fi
}

is_there() { # PATH
    [ -e "$prefix/$1" ] || [ -L "$prefix/$1" ]
}

# Whether what is there is as this script left it.
is_ours() { # LIST PATH
    grep -qxF -- "$(line_of "$prefix" "$2")" "$1"
}

# The paths of the files and links, or of the folders, of a list, each once.
files_of() { # LIST
    sed -n 's/^file [^ ]* //p; s/^link [^ ]* //p' "$1" | grep -vE '^/|(^|/)\.\.(/|$)' | sort -u
}

folders_of() { # LIST
    sed -n 's/^folder - //p' "$1" | grep -vE '^/|(^|/)\.\.(/|$)' | sort -u
}

remove_files() { # LIST: paths come on standard input
    local path
    while IFS= read -r path; do
        is_there "$path" || continue
        if is_ours "$1" "$path"; then
            rm -f -- "$prefix/$path"
        else
            echo "install: $prefix/$path was changed since it was installed, and is left" >&2
        fi
    done
}

# A folder goes if nothing else is in it.
remove_folders() { # LIST
    local path
    # What Python keeps of the modules that it has read.
    rm -rf -- "$prefix"/lib/ptides/python/ptides/__pycache__ "$prefix"/lib/ptides/python/ptides/*/__pycache__
    while IFS= read -r path; do
        rmdir -- "$prefix/${path#.}" 2>/dev/null || true
    done < <(folders_of "$1" | sort -r)
}

uninstall() {
    [ -f "$prefix/$list" ] || fail "nothing is installed in $prefix"
    cp -- "$prefix/$list" "$work/list" || exit 1
    remove_files "$work/list" < <(files_of "$work/list")
    rm -f -- "$prefix/$list" || exit 1
    remove_folders "$work/list"
}

# Puts a file or a folder into the stage.
put() { # SOURCE TARGET
    { mkdir -p -- "$work/stage/${2%/*}" && cp -R -- "$1" "$work/stage/$2"; } || fail "$1 can't be read"
}

# All as it will be, below $work/stage.
stage() {
    local version program page companion packages
    version=$(./ptides --version) || exit 1
    program=$(sed -n 's/^program \(.*\),.*/\1/p' <<<"$version")
    [ -n "$program" ] || fail 'there is no program of these sources yet; ./ptides builds it'
    put ptides lib/ptides/ptides
    put "$program" lib/ptides/program
    grep -v '^program ' <<<"$version" >"$work/stage/lib/ptides/version"
    for companion in tools/ptides-*; do
        [[ ${companion##*/ptides-} == *[!a-z0-9-]* || ! -x $companion ]] || put "$companion" "lib/ptides/$companion"
    done
    while IFS= read -r page; do put "$page" "lib/ptides/$page"; done < <(find python -name __pycache__ -prune -o -type f -print)
    for packages in "$prefix"/lib/python3.*/{site,dist}-packages; do
        [ -d "$packages" ] || continue
        page=$work/stage/${packages#"$prefix"/}
        { mkdir -p -- "$page" && printf '%s\n' "$prefix/lib/ptides/python" >"$page/ptides.pth"; } || exit 1
    done
    mkdir -p "$work/stage/bin"
    ln -s ../lib/ptides/ptides "$work/stage/bin/ptides"
    put docs/ptides.1 share/man/man1/ptides.1
    for page in docs/man/*.1; do put "$page" "share/man/man1/${page##*/}"; done
    put completions/ptides.bash share/bash-completion/completions/ptides
    put schemas/graph.schema.json share/ptides/graph.schema.json
    put schemas/air.csv-metadata.json share/ptides/air.csv-metadata.json
    for page in README.md CHANGELOG.md LICENSE* docs/*; do
        [ "$page" = docs/ptides.1 ] || [ "$page" = docs/man ] || put "$page" "share/doc/ptides/$page"
    done
    put examples share/doc/ptides/examples
    chmod -R u=rwX,go=rX "$work/stage"
}

# Writes the folders of the stage that aren't there, from the outermost, and makes them.
make_folders() {
    local path
    mkdir -p -- "$(dirname -- "$prefix")" || return 1
    while IFS= read -r path; do
        [ ! -d "$prefix/$path" ] || continue
        mkdir -m 755 -- "$prefix/${path#.}" || return 1
        echo "folder - $path"
    done < <(cd "$work/stage" && find . -type d | sed 's,^\./,,' | sort)
}

# Puts each file beside its place and then there, so that no file is ever half written.
put_files() {
    local path
    while IFS= read -r path; do
        if ! { cp -P -p -- "$work/stage/$path" "$prefix/$path.new.$$" && mv -f -- "$prefix/$path.new.$$" "$prefix/$path"; }; then
            rm -f -- "$prefix/$path.new.$$"
            return 1
        fi
    done < <(files_of "$work/new")
}

install() {
    local path
    stage
    (cd "$work/stage" && find . -type f -o -type l) | sed 's,^\./,,' | sort |
        while IFS= read -r path; do line_of "$work/stage" "$path"; done >"$work/new"
    touch "$work/old"
    if [ -f "$prefix/$list" ]; then
        cp -- "$prefix/$list" "$work/old" || exit 1
    fi
    # Of an install that was cut short some files are the old ones and some the new.
    sort -u "$work/old" "$work/new" >"$work/both"
    while IFS= read -r path; do
        if is_there "$path" && ! is_ours "$work/old" "$path"; then
            fail "$prefix/$path is there and isn't of an install by this script: nothing is changed"
        fi
    done < <(files_of "$work/new")
    if ! make_folders >"$work/made"; then
        remove_folders "$work/made"
        fail "a folder can't be made in $prefix"
    fi
    cat "$work/made" >>"$work/both"
    if ! cp -- "$work/both" "$prefix/$list" || ! put_files; then
        uninstall
        fail "a file can't be written in $prefix: nothing is installed there now"
    fi
    # What the older install had and this one doesn't have goes.
    comm -23 <(files_of "$work/old") <(files_of "$work/new") | remove_files "$work/both"
    { grep '^folder ' "$work/both" | sort -u; cat "$work/new"; } >"$work/list"
    cp -- "$work/list" "$prefix/$list" || exit 1
}

# What is left to do after an install.
say_what_next() {
    echo "installed $(head -n 1 "$prefix/lib/ptides/version") in $prefix"
    case :$PATH: in
        *":$prefix/bin:"*) ;;
        *) echo "put $prefix/bin on your PATH" ;;
    esac
    case $prefix in
        /usr | /usr/local | "${HOME-}/.local") ;;
        *) printf 'for completion: . %q\n' "$prefix/share/bash-completion/completions/ptides" ;;
    esac
    grep -q '/ptides\.pth$' "$prefix/$list" || printf 'for import ptides: export PYTHONPATH=%q\n' "$prefix/lib/ptides/python"
}

make_work
case $todo in
    install)
        install
        say_what_next
        ;;
    uninstall) uninstall ;;
esac
