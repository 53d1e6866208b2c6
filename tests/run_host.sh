#!/usr/bin/env bash
# Builds the archives from the proved crates and runs every test in C on them, on the programs and on the tools. It fails
# where any of them fails, and says what it does not run. ARCHIVE, RECORDS and LISTING may name others, to try the tests.
set -euo pipefail
cd "$(dirname "$0")/.."
archive=${ARCHIVE:-target/staticlib/libtubochre.a}
records=${RECORDS:-target/staticlib/librecords.a}
listing=${LISTING:-target/bin/listing}
out=${OUT:-target/host}
made=(ARCHIVE="$archive" RECORDS="$records" LISTING="$listing")

say() { printf '== %s\n' "$*"; }

fail() {
    echo "FAILED: $*"
    exit 1
}

# build FOLDER FLAGS...: all C programs
build() {
    local folder=$1
    shift
    make -s host tests "$folder/measure" OUT="$folder" "${made[@]}" CFLAGS="$*"
}

# run_tests FOLDER: the tests of the calls, and of the program that people run
run_tests() {
    "$1/test_header"
    "$1/test_header_cxx"
    "$1/test_calls"
    "$1/test_forks"
    "$1/test_rooms"
    "$1/test_limits"
    "$1/test_null"
    "$1/test_tray"
    "$1/test_merge"
    "$1/test_records"
    "$1/test_places"
    tests/programs/test_bench.sh "$1/tubochre-bench" "$listing"
}

# The header by itself in each language that may include it.
try_header() {
    local standard
    for standard in c99 c11 c++11 c++20; do
        case $standard in
        c++*) c++ -std="$standard" -Wall -Wextra -Wpedantic -Werror -fsyntax-only -x c++ include/tubochre.h ;;
        *) cc -std="$standard" -Wall -Wextra -Wpedantic -Werror -fsyntax-only -x c include/tubochre.h ;;
        esac || fail "the header is not $standard"
    done
    echo 'ok: the header in C and C++, older and newer'
}

# readme_shows WHAT TEXT: the README has this text, four blanks further in
readme_shows() {
    [ -n "$2" ] || fail "there is nothing where the README shows $1"
    # shellcheck disable=SC2001 # at the beginning of each line that is not empty
    [[ $(cat README.md) = *"$(sed 's/^\(.\)/    \1/' <<<"$2")"* ]] || fail "the README does not show $1: $2"
}

# An installed copy, the example compiled as a user would, and the installed programs.
try_install() {
    local prefix=$out/installed flags version
    make -s install OUT="$out" PREFIX="$prefix" "${made[@]}"
    version=$("$prefix/bin/tubochre-bench" --version)
    if command -v pkg-config >/dev/null; then
        export PKG_CONFIG_PATH="$prefix/lib/pkgconfig"
        flags=$(pkg-config --cflags --libs tubochre)
        [ "$(pkg-config --variable=prefix tubochre)" = "$(realpath "$prefix")" ] || fail 'pkg-config has another place'
        [ "tubochre-bench $(pkg-config --modversion tubochre)" = "$version" ] || fail 'pkg-config has another version'
    else
        say 'pkg-config is not here: its file is not tried'
        flags="-I$prefix/include -L$prefix/lib -ltubochre -ltubochre_records"
    fi
    # shellcheck disable=SC2086 # the flags are words
    cc -std=c11 -Wall -Wextra -Wpedantic -Werror examples/example.c $flags -o "$prefix/example"
    [ "$("$prefix/example")" = '2 states, 4 edges; the lasso is taken' ] || fail 'the example prints something else'
    readme_shows 'the example' "$(cat examples/example.c)"
    readme_shows 'the listing' "$("$prefix/bin/tubochre-listing" <examples/pattern-a.txt)"
    readme_shows 'the answers' "$("$prefix/bin/tubochre-bench" examples/pattern-a.txt - 0 11 01)"
    readme_shows 'the refusal' "$(printf '2 1 1\n0 1\n0 0\n0 7 0\n' | "$prefix/bin/tubochre-bench" -)"
    readme_shows 'the tray' "$("$prefix/bin/tubochre-bench" examples/pattern-a.txt --tray examples/lassos.txt | tail -4)"
    readme_shows 'the merge' "$("$prefix/bin/tubochre-bench" --merge examples/clamp.txt examples/spindle.txt |
        "$prefix/bin/tubochre-bench" - 123 01 12 0 - 123)"
    readme_shows 'the refused merge' "$("$prefix/bin/tubochre-bench" --merge examples/clamp.txt examples/pattern-a.txt 2>&1)"
    readme_shows 'the fork' "$(printf '2 1 2\n1 0\n2 1\n0 0 2\n0 1 0\n' | "$prefix/bin/tubochre-bench" -)"
    echo 'ok: an installed copy, the example compiled with it, its programs, and what the README shows of them'
}

# A copy laid down elsewhere than where it will stand; and a place that pkg-config could not name.
try_places() {
    rm -rf "$out/staged"
    make -s install OUT="$out" DESTDIR="$out/staged" PREFIX=some/place "${made[@]}"
    [ -x "$out/staged$PWD/some/place/bin/tubochre-bench" ] || fail 'DESTDIR and a PREFIX that is relative go elsewhere'
    if make -s install OUT="$out" PREFIX="$out/two words" "${made[@]}" 2>"$out/make.txt"; then
        fail 'a PREFIX with a blank is taken'
    fi
    grep -q 'without blanks' "$out/make.txt" || fail "a PREFIX with a blank is refused without a reason: $(cat "$out/make.txt")"
    [ ! -e "$out/two" ] && [ ! -e words ] || fail 'a PREFIX with a blank leaves something behind'
    echo 'ok: where an installed copy goes'
}

if [ -z "${ARCHIVE:-}" ]; then
    say 'the archives, from the proved crates'
    make -s lib
fi
[ -x "$listing" ] || { say "there is no $listing: make run makes it"; exit 1; }

say 'citations of the rules'
tests/test_citations.sh

say 'tests of the C calls and programs'
build "$out" -O2 -g
run_tests "$out"
try_header
try_install
try_places
tests/programs/test_listing.sh "$listing"
if command -v python3 >/dev/null; then
    tests/programs/test_draw.sh
else
    say 'python3 is not here: tools/draw.py is not tried'
fi

say 'comparison with the reference'
"$out/compare"
"$out/compare_listing" "$listing"

say 'the same with the C side under -fsanitize=address,undefined, the comparison shorter'
build "$out-sanitized" -O1 -g -fsanitize=address,undefined -fno-sanitize-recover=all
run_tests "$out-sanitized"
"$out-sanitized/compare" --trials 1500
"$out-sanitized/compare_listing" "$listing" --trials 300

if command -v valgrind >/dev/null; then
    say 'the same under valgrind, the comparison shorter'
    for test in "$out/test_calls" "$out/test_forks" "$out/test_rooms" "$out/test_null" "$out/test_tray" \
        "$out/test_merge" "$out/test_records" "$out/compare --trials 60"; do
        # shellcheck disable=SC2086 # a program and its arguments
        valgrind -q --error-exitcode=1 --leak-check=full $test
    done
else
    say 'valgrind is not here: not run under it'
fi

say 'a short run of the benchmark, for its comparisons only'
"$out/measure" --quick >"$out/measure.txt" || { cat "$out/measure.txt"; exit 1; }
say 'host: all passed'
