#!/usr/bin/env bash
# Makes the wheel of the package for Python, which has the program and its companions too:
#
#     tools/wheel.sh [FOLDER]        makes ptides-VERSION-py3-none-manylinux_2_34_x86_64.whl in FOLDER, or in out/
#
# The wheel has, as `ptides/prefix`, what tools/install.sh installs: so `pip install` of it gives `import ptides`, the command
# `ptides` and the plugin of pytest. It is built without network, by setuptools and wheel (Debian: python3-setuptools, python3-wheel).
# The same clone gives the same bytes, by the same versions of these two.
set -u
set -o pipefail
here=$(realpath -- "$0") || exit 1
. "${here%/*}/common.sh"

fail() { # MESSAGE
    echo "wheel: $1" >&2
    exit 1
}

# The first Python that has what builds a wheel.
builder() {
    local python
    for python in python3 /usr/bin/python3; do
        if "$python" -c 'import setuptools, wheel' 2>/dev/null; then
            echo "$python"
            return
        fi
    done
    return 1
}

if [ $# -gt 1 ] || [[ ${1-} == -* ]]; then
    fail 'usage: tools/wheel.sh [FOLDER]'
fi
python=$(builder) || fail 'no Python has setuptools and wheel (Debian: apt-get install python3-setuptools python3-wheel)'
make_work
folder=$(of_caller "${1:-$top/out}")
umask 022
tools/install.sh "$work/prefix" >"$work/lines" || fail "the wheel can't be put together"
# The package is that of the wheel itself, and a wheel can't have links.
rm -rf -- "$work/prefix/bin" "$work/prefix/lib/ptides/python"
mkdir "$work/build" "$work/made" || exit 1
{
    tar --exclude=__pycache__ --exclude='*.egg-info' --exclude=./build -cf - -C python . | tar -xf - -C "$work/build" &&
        mv -- "$work/prefix" "$work/build/ptides/prefix" &&
        cp LICENSE* "$work/build" &&
        printf '[bdist_wheel]\nplat_name = manylinux_2_34_x86_64\n' >"$work/build/setup.cfg" &&
        chmod -R u=rwX,go=rX "$work/build"
} || fail "the wheel can't be put together"
# 1980 is the first year that a wheel can state.
(cd "$work/build" && SOURCE_DATE_EPOCH=315532800 PYTHONDONTWRITEBYTECODE=1 "$python" -c '
import sys
from setuptools import build_meta
build_meta.build_wheel(sys.argv[1])' "$work/made") >"$work/lines" 2>&1 || {
    cat "$work/lines" >&2
    fail "the wheel can't be built"
}
{ mkdir -p -- "$folder" && mv -f -- "$work"/made/*.whl "$folder"; } || fail "the wheel can't be written to $folder"
(cd "$folder" && sha256sum -- ptides-*.whl)
