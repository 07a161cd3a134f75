# shellcheck shell=sh
# What the scripts of this project begin with. A script finds this file by its own place, with links followed:
#
#     here=$(realpath -- "$0") || exit 1
#     . "${here%/*}/common.sh"
#
# and then has
#   top                the project's folder, which is the current folder now
#   caller             the folder that the script was started in
#   of_caller PATH     writes the path, which is meant from that folder, as one that begins with /
#   make_work          makes a temporary folder, `work`, that is removed when the script ends, also by a signal
#   blocks_of FOLDER   writes `--blocks` and its file, a line each, if the words of this example have them
# Whatever CDPATH, TMPDIR and the language are, what a script does is the same. A script ends if it can't find its place or
# make its folder.

unset CDPATH
LC_ALL=C
export LC_ALL
caller=$PWD
# A path from the current folder would be another one after the next cd.
case ${TMPDIR-} in
    '' | /*) ;;
    *)
        TMPDIR=$caller/$TMPDIR
        export TMPDIR
        ;;
esac
# shellcheck disable=SC2154
cd -P -- "${here%/*}/.." || exit 1
# shellcheck disable=SC2034
top=$PWD

of_caller() { # PATH
    case $1 in
        /*) printf '%s\n' "$1" ;;
        *) printf '%s\n' "$caller/$1" ;;
    esac
}

blocks_of() { # FOLDER
    [ ! -e "$1/words" ] || sed -n '/^--blocks$/{p;n;p;}' "$1/words"
}

# What was copied from a folder that can't be written can't be written either.
remove_work() {
    chmod -R u+rwX "$work" 2>/dev/null
    rm -rf -- "$work"
}

make_work() {
    work=$(mktemp -d) && [ -n "$work" ] && [ -d "$work" ] || exit 1
    trap remove_work EXIT
    trap 'exit 129' HUP
    trap 'exit 130' INT
    trap 'exit 143' TERM
}
