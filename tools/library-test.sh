#!/bin/sh
# The test of the library from C (docs/LIBRARY.md): builds it, compiles c/ with the system's C compiler, plays all of the lab's vectors through it and compares every line with the lab's own.
# The examples are played through it and through ./lab. It is no part of the gate: the archives are made by proving, and a compiler is needed. CC names another compiler, CFLAGS more options.
#   tools/library-test.sh quick   the gate's part, some seconds: c/ and examples/ compile, the header and the examples as C++ too, a mix-up of words is told; and where the archives are built and new, the
#                                 numbers' test. What can't be done here is said, and is no failure.
set -eu
root=$(cd "$(dirname "$0")/.." && pwd)
quick=0
[ "${1-}" != quick ] || { quick=1; shift; }
[ $# = 0 ] || { echo 'usage: tools/library-test.sh [quick]' >&2; exit 2; }
if [ "$(uname -m)" != x86_64 ] && [ -z "${CC-}" ]; then
	echo "library-test: SKIPPED: nothing was compiled and nothing compared. The archives link into x86-64 programs only and this is $(uname -m): set CC to a compiler for x86-64 whose programs run here"
	exit 0
fi
cc=${CC-}
for name in cc gcc clang; do
	[ -n "$cc" ] || ! command -v "$name" >/dev/null 2>&1 || cc=$name
done
if [ -z "$cc" ]; then
	echo 'library-test: SKIPPED: no C compiler was found (cc, gcc, clang; CC may name one): nothing was compiled and nothing compared'
	exit 0
fi

failed=0
mine=$(mktemp -d)
trap 'rm -rf "$mine"' EXIT
cxx=
for name in c++ g++ clang++; do
	[ -n "$cxx" ] || [ -n "${CC-}" ] || ! command -v "$name" >/dev/null 2>&1 || cxx=$name
done
strict='-Wall -Wextra -Wpedantic -Wconversion -Werror'

# mixed CALL: a compiler tells that words are mixed up.
mixed() {
	printf '#include "munzolkheg.h"\nuint64_t f(mzk_client *k, mzk_node *n);\nuint64_t f(mzk_client *k, mzk_node *n) { (void)k; (void)n; return %s; }\n' "$1" >"$mine/mixed.c"
	# shellcheck disable=SC2086
	if "$cc" -std=c99 $strict -Wenum-conversion -I"$root/c" -fsyntax-only "$mine/mixed.c" 2>"$mine/said"; then
		echo "library-test: FAILED: $cc says nothing of $1"
		failed=1
	fi
}

# needs FOLDER: the archives there need nothing from outside but what docs/LIBRARY.md says.
needs() {
	if ! command -v nm >/dev/null 2>&1; then
		echo 'library-test: what the archives need from outside SKIPPED: nm was not found'
		return
	fi
	for archive in "$1"/libmunzolkheg_*.a; do
		others=$(nm -u "$archive" 2>/dev/null | sed -n 's/^ *U //p' | grep -vxE 'memcpy|memset' | sort -u | tr '\n' ' ')
		[ -z "$others" ] || { echo "library-test: FAILED: $archive needs from outside $others"; failed=1; }
	done
}

# The sources compile without a warning, the header and the examples as C++ too; what has the new names alone compiles without the old ones.
for file in "$root"/c/*.c "$root"/examples/*.c; do
	# shellcheck disable=SC2086
	"$cc" -std=c11 -D_POSIX_C_SOURCE=200809L -Wall -Wextra -Werror ${CFLAGS-} -I"$root/c" -fsyntax-only "$file" || failed=1
done
for file in "$root/c/numbers.c" "$root/examples/driver-under-test.c"; do
	# shellcheck disable=SC2086
	"$cc" -std=c99 -DMZK_NEW_NAMES_ONLY $strict ${CFLAGS-} -I"$root/c" -fsyntax-only "$file" || failed=1
done
if [ -n "$cxx" ]; then
	for file in "$root"/examples/*.c; do
		# shellcheck disable=SC2086
		"$cxx" -x c++ -std=c++11 -Wall -Wextra -Werror ${CFLAGS-} -I"$root/c" -fsyntax-only "$file" || failed=1
	done
else
	echo 'library-test: the header as C++ SKIPPED: no C++ compiler was found (c++, g++, clang++), or CC names a compiler for another processor'
fi
mixed 'mzk_cw(k, MZK_NW_VERSION)'
mixed 'mzk_ca(k, MZK_CW_VERSION)'
mixed 'mzk_nw(n, MZK_CW_VERSION)'
mixed 'mzk_na(n, MZK_NW_STATE)'
if [ "$quick" = 1 ]; then
	if there=$("$root/library" --built); then
		# shellcheck disable=SC2086
		"$cc" -std=c99 $strict ${CFLAGS-} -I"$root/c" "$root/c/numbers.c" -L"$there" -lmunzolkheg_client -lmunzolkheg_node -o "$mine/numbers"
		"$mine/numbers" >"$mine/said" || { cat "$mine/said"; failed=1; }
		needs "$there"
	else
		echo "library-test: the numbers' test SKIPPED: the archives are not built, or older than their sources (./library builds them)"
	fi
	[ "$failed" = 0 ] || echo 'library-test: FAILED'
	exit "$failed"
fi

there=$("$root/library")
needs "$there"

# compile NAME FILE OPTIONS..: a program of the library.
compile() {
	name=$1
	file=$2
	shift 2
	# shellcheck disable=SC2086
	"$cc" -std=c11 -D_POSIX_C_SOURCE=200809L -Wall -Wextra ${CFLAGS-} "$@" -I"$root/c" "$root/$file" -L"$there" -lmunzolkheg_client -lmunzolkheg_node -o "$there/$name"
}

# same WHAT GOT DUE: every line.
same() {
	if cmp -s "$2" "$3"; then
		echo "library-test: $1: $(wc -l <"$3") lines, all as they must be"
		return
	fi
	failed=1
	echo "library-test: $1: FAILED, the first lines that differ (< got, > due):"
	diff "$2" "$3" | head -n 6 || true
}

echo "library-test: compiling with $cc"
compile histories c/histories.c -O2
compile driver examples/driver.c -O2
compile wrong c/wrong.c -O2
compile numbers c/numbers.c -O2
compile measure c/measure.c -O3
if command -v c++ >/dev/null 2>&1 && [ -z "${CC-}" ]; then
	c++ -x c++ -fsyntax-only "$root/c/munzolkheg.h" 2>&1 | grep -v 'pragma once' || true
fi

"$there/histories" <"$root/crates/lab/stdin" >"$there/lines"
same "the lab's vectors" "$there/lines" "$root/crates/lab/stdout"
"$there/histories" <"$root/examples/leg-lost.history" >"$there/lines"
"$there/driver" >"$there/driver.lines"
same 'examples/driver.c and examples/leg-lost.history' "$there/driver.lines" "$there/lines"
for history in "$root"/examples/*.history; do
	"$there/histories" <"$history" >"$there/lines"
	"$root/lab" "$history" >"$there/lab.lines"
	same "examples/$(basename "$history")" "$there/lines" "$there/lab.lines"
done
"$there/wrong" || failed=1
"$there/numbers" || failed=1

# Installed elsewhere and found by pkg-config, the example is the same.
if command -v make >/dev/null 2>&1 && command -v pkg-config >/dev/null 2>&1; then
	make -s -C "$root/c" install PREFIX="$mine/there"
	# shellcheck disable=SC2046
	"$cc" -std=c11 "$root/examples/driver.c" $(PKG_CONFIG_PATH="$mine/there/lib/pkgconfig" pkg-config --cflags --libs munzolkheg) -o "$mine/installed"
	"$mine/installed" >"$there/lines"
	same 'the installed library' "$there/lines" "$there/driver.lines"
else
	echo 'library-test: the installed library SKIPPED: make or pkg-config is not there'
fi

# The binding for Python: the fixed histories, and where pytest and Hypothesis are, which are optional, any.
if [ -z "${CC-}" ]; then
	export PYTHONPATH="$root/c${PYTHONPATH:+:$PYTHONPATH}" PYTHONDONTWRITEBYTECODE=1
	python3 "$root/examples/test_driver.py" || failed=1
	if python3 -c 'import pytest, hypothesis' 2>/dev/null; then
		python3 -m pytest -q -p no:cacheprovider "$root/examples/test_driver.py" || failed=1
	else
		echo 'library-test: the binding with Hypothesis SKIPPED: pytest and hypothesis are not there (Debian: python3-pytest, python3-hypothesis)'
	fi
else
	echo 'library-test: the binding for Python SKIPPED: CC names a compiler for another processor'
fi
[ "$failed" = 0 ] || {
	echo 'library-test: FAILED'
	exit 1
}
echo 'library-test: passed'
