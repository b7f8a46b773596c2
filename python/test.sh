#!/usr/bin/env bash
# SPDX-License-Identifier: MIT OR Apache-2.0
# Links the shared library for Python, and tests the package of this folder: its types, its tests, its installation by pip, and the time of its
# operations, which fails no test.
#
# usage: python/test.sh [--install | --install-only]
#
#   --install       first install Debian's packages of Python, pytest, mypy and gcc
#   --install-only  install these packages and do nothing else
#
# ARCHIVES=FOLDER has the library for C, TARGET/libgorseplumb.a or native.a. Without it the script takes out/TARGET/libgorseplumb.a, which
# c/archive proves and builds if it is missing. FFAPLAY=FILE is the program to compare with [default: ./ffaplay]. PYTHON=FILE is the
# interpreter [default: /usr/bin/python3].
#
# Status: 0 if all tests that ran passed; the last line says whether all ran. Otherwise another number.
set -euo pipefail
here=$(cd "$(dirname "${BASH_SOURCE[0]}")" && pwd)
top=$(dirname "$here")
python=${PYTHON:-/usr/bin/python3} # Debian's, which has pytest by its package
packages="python3 python3-pytest python3-hypothesis python3-venv mypy gcc libc6-dev binutils"
if [[ ${1:-} == --install* ]]; then
    { apt-get update && apt-get install -y $packages; } >/dev/null || echo "could not install all of: $packages"
fi
if [[ ${1:-} == --install-only ]]; then exit 0; fi
to=$(mktemp -d)
trap 'rm -rf "$to"' EXIT
missing=0
lacks() { echo "not run: $1"; missing=1; }

archive() {
    local target
    target=$(uname -m)-unknown-linux-gnu
    for ready in "${ARCHIVES:-}/$target/libgorseplumb.a" "${ARCHIVES:-}/native.a"; do
        if [[ -n ${ARCHIVES:-} && -e $ready ]]; then
            echo "$ready"
            return
        fi
    done
    [[ -e $top/out/$target/libgorseplumb.a ]] || "$top/c/archive" >&2
    echo "$top/out/$target/libgorseplumb.a"
}

for tool in "$python" cc; do
    command -v "$tool" >/dev/null || { echo "there is no $tool (Debian has it in one of: $packages)" >&2; exit 1; }
done
GORSEPLUMB_ARCHIVE=$(archive)
export GORSEPLUMB_ARCHIVE FFAPLAY=${FFAPLAY:-$top/ffaplay} PYTHONDONTWRITEBYTECODE=1
"$FFAPLAY" check "$top/examples/machine.toml" >/dev/null || { lacks "comparisons with the program: $FFAPLAY does not run"; unset FFAPLAY; }
"$python" "$here/backend.py" "$to/libgorseplumb.so" >/dev/null
export GORSEPLUMB_LIBRARY=$to/libgorseplumb.so PYTHONPATH=$here

if command -v nm >/dev/null; then
    others=$(nm -D --defined-only "$GORSEPLUMB_LIBRARY" | awk '$3 !~ /^gorseplumb_/ { print $3 }')
    if [[ $others ]]; then echo "these names of the shared library must begin with gorseplumb_:" $others >&2; exit 1; fi
    echo "shared library: $(stat -c %s "$GORSEPLUMB_LIBRARY") bytes; each name begins with gorseplumb_"
else
    lacks "names of the shared library: there is no nm"
fi

left=() # what has the types of a package that isn't there
"$python" -c 'import hypothesis' 2>/dev/null || left=(--exclude test_states)
if command -v mypy >/dev/null; then
    (cd "$here" && mypy --strict --cache-dir "$to/mypy" "${left[@]}" gorseplumb picture tests backend.py bench.py)
else
    lacks "types: there is no mypy"
fi

if "$python" -c 'import pytest' 2>/dev/null; then
    (cd "$here" && "$python" -m pytest -q -rs -p no:cacheprovider tests) | tee "$to/tests"
    if grep -q '^SKIPPED' "$to/tests"; then lacks "the tests that pytest skipped, as it says above"; fi
else
    lacks "tests: $python has no pytest"
fi

# pip installs the package without a network. It is used from another folder, and mypy checks a program that uses it.
if "$python" -c 'import ensurepip' 2>/dev/null; then
    "$python" -m venv "$to/venv"
    PIP_NO_INDEX=1 PIP_DISABLE_PIP_VERSION_CHECK=1 "$to/venv/bin/pip" install -q "$here"
    said=$(cd / && env -u PYTHONPATH -u GORSEPLUMB_LIBRARY "$to/venv/bin/gorseplumb" "$top/examples/machine.toml" <<<"load 40010000 1")
    [[ $said == "data 00" ]] || { echo "the installed package must print 'data 00', but prints: $said" >&2; exit 1; }
    echo "pip install: installed without a network, and used from another folder"
    if command -v mypy >/dev/null; then
        sed -n '/^## A first example/,/^## What/s/^    //p' "$top/docs/PYTHON.md" >"$to/example.py"
        (cd "$to" && env -u PYTHONPATH mypy --strict --cache-dir "$to/mypy" --python-executable "$to/venv/bin/python" example.py)
    fi
else
    lacks "pip install: $python has no ensurepip"
fi

# (a slow operation is reported and is no failure: on a busy machine times say little)
"$python" "$here/bench.py" --check || echo "slow: a call took more than three times as long as ctypes"
if ((missing)); then echo "passed, except what did not run"; else echo "passed"; fi
