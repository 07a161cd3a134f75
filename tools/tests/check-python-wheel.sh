#!/usr/bin/env bash
# Checks tools/wheel.sh, and what tools/install.sh installs for Python: in fresh virtual environments and in a fresh prefix. The last
# line is `N passed, M failed, K skipped`.
#
# shellcheck source-path=SCRIPTDIR source=counting.sh
. "$(dirname -- "$(realpath -- "$0")")/counting.sh" || exit 1
system=/usr/bin/python3
cd -- "$work" || exit 1
copy "$top/examples/governor" governor
# What the environment names goes before what is installed.
unset PTIDES PYTHONPATH PYTEST_PLUGINS

if ! "$system" -c 'import setuptools, wheel' 2>/dev/null; then
    skip "all of the wheel, since Debian's python3-setuptools and python3-wheel aren't there"
    finish
    exit
fi
"$top/tools/wheel.sh" one >digest || fail "a wheel can't be built"
(umask 077 && TMPDIR=$work "$top/tools/wheel.sh" two >/dev/null) || fail "a wheel can't be built a second time"
wheel=$(basename -- one/ptides-*.whl)
equal "its name" "ptides-$(<"$top/VERSION")-py3-none-manylinux_2_34_x86_64.whl" "$wheel"
equal "its digest" "$(sha256sum <"one/$wheel" | cut -d ' ' -f 1)  $wheel" "$(<digest)"
same "the same clone gives the same bytes" "one/$wheel" "two/$wheel"
refuses "two folders" 'wheel: usage: tools/wheel.sh [FOLDER]' "$top/tools/wheel.sh" a b

# Runs a command with nothing on the path but the system's folders.
bare() { # COMMAND..
    env -i HOME="$work" PATH=/usr/bin:/bin LC_ALL=C.UTF-8 PYTHONDONTWRITEBYTECODE=1 "$@"
}

# A virtual environment with the wheel, made without network.
check_wheel() { # NAME PYTHON OPTION..
    local name=$1 python=$2 place
    shift 2
    place=$work/$name
    if ! "$python" -m venv "$@" "$place" >/dev/null 2>&1; then
        skip "a virtual environment of $name, since it can't be made"
        return
    fi
    bare "$place/bin/python" -m pip install -q --no-index --no-deps --disable-pip-version-check "one/$wheel" >notes 2>&1 || fail "$name: pip: $(<notes)"
    equal "$name: the version" "ptides $(<"$top/VERSION")" "$(bare "$place/bin/ptides" --version | head -n 1)"
    equal "$name: a run" "$(<governor/expected.csv)" "$(bare "$place/bin/ptides" -C governor run graph.json)"
    equal "$name: a companion" 'bound,speed,200,299' "$(bare "$place/bin/ptides" -C governor timing graph.json | sed -n 's/,up can.*//p' | head -n 1)"
    equal "$name: import" '<ptides.Result: status 0, 2 events, 0 missed>' "$(bare "$place/bin/python" -c 'import ptides; print(ptides.run("governor"))')"
    equal "$name: the program of the wheel" "$place" "$(bare "$place/bin/python" -c 'from ptides import program; print(program.find_program())' |
        sed 's,/lib/python3.*,,')"
    if bare "$place/bin/python" -c 'import pytest' 2>/dev/null; then
        equal "$name: the plugin" '4 passed' "$(bare "$place/bin/python" -m pytest -q -p no:cacheprovider governor | grep -o '[0-9]* passed')"
    else
        skip "the plugin in $name, since pytest isn't there"
    fi
    bare "$place/bin/python" -m pip uninstall -q -y --disable-pip-version-check ptides >/dev/null 2>&1
    equal "$name: what is left" '' "$(find "$place" -name '*ptides*')"
}

check_wheel debian "$system" --system-site-packages
for version in 3.9 3.13; do
    # Of the versions that pyenv has each is asked for by its number.
    python=$(PYENV_VERSION=$(pyenv versions --bare 2>/dev/null | grep "^$version\." | head -n 1) && export PYENV_VERSION &&
        command -v "python$version" >/dev/null && "python$version" -c 'import sys; print(sys.executable)' 2>/dev/null)
    if [ -n "$python" ]; then check_wheel "python$version" "$python"; else skip "python$version, since it isn't there"; fi
done

# In a prefix, and in a virtual environment, whose Python finds the package by itself.
"$top/tools/install.sh" "$work/prefix" >said
equal "the prefix: what is left to do" "for import ptides: export PYTHONPATH=$work/prefix/lib/ptides/python" "$(grep '^for import' said)"
equal "the prefix: import" '<ptides.Result: status 0, 2 events, 0 missed>' \
    "$(bare env PYTHONPATH="$work/prefix/lib/ptides/python" "$system" -c 'import ptides; print(ptides.run("governor"))')"
if "$system" -c 'import pytest' 2>/dev/null; then
    equal "the prefix: the plugin" '4 passed' "$(bare env PYTHONPATH="$work/prefix/lib/ptides/python" PYTEST_PLUGINS=ptides.pytest_plugin \
        "$system" -m pytest -q -p no:cacheprovider governor | grep -o '[0-9]* passed')"
else
    skip "the plugin in a prefix, since pytest isn't there"
fi
if "$system" -m venv --without-pip "$work/environment" >/dev/null 2>&1; then
    "$top/tools/install.sh" "$work/environment" >said
    equal "an environment: what is left to do" '' "$(grep '^for import' said)"
    equal "an environment: import" '<ptides.Result: status 0, 2 events, 0 missed>' \
        "$(bare "$work/environment/bin/python" -c 'import ptides; print(ptides.run("governor"))')"
    "$top/tools/install.sh" --uninstall "$work/environment"
    equal "an environment: what is left" '' "$(find "$work/environment" -name '*ptides*')"
else
    skip "an environment that tools/install.sh installs into, since none can be made"
fi
finish
