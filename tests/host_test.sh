#!/bin/sh
# Tests the host library target/staticlib/libhost.a: builds it, runs the examples in C and Rust and the tests of
# bindings/, compares it with the reference call by call, and looks for wrong accesses to memory with valgrind.
# Installs valgrind and the C compilers where they are missing; what cannot be run counts as failed.
# The last line is 'host: N passed, M failed'.
set -u
cd "$(dirname "$0")/.." || exit 2
export CARGO_TARGET_DIR="$PWD/target/cargo"
export GEVNYUSTO_LIB="$PWD/target/staticlib"
work=target/host_test
differential=$CARGO_TARGET_DIR/release/differential
rm -rf "$work" "$GEVNYUSTO_LIB/libhost.a" "$differential"
mkdir -p "$work" || exit 2
passed=0
failed=0

# Installs a Debian package if its program is missing.
want() {
    command -v "$1" >/dev/null || { apt-get update && apt-get install -y "$2"; } >"$work/apt" 2>&1
}

# A test by its name and its command; what a failed one said last is shown.
try() {
    name=$1
    shift
    start=$(date +%s)
    if "$@" >"$work/said" 2>&1; then
        passed=$((passed + 1))
        echo "host: $name, $(($(date +%s) - start)) s"
    else
        failed=$((failed + 1))
        echo "host: failed: $name"
        tail -20 "$work/said" | cut -c1-300 | sed 's/^/  /'
    fi
}

# The Rust crates, offline.
crates() {
    command=$1
    shift
    cargo "$command" --release --offline --manifest-path bindings/Cargo.toml "$@"
}

# A command's standard output equals a file.
prints() {
    wanted=$1
    shift
    "$@" >"$work/out" && diff "$wanted" "$work/out"
}

# A command under valgrind, which finds no error.
careful() {
    valgrind -q --error-exitcode=9 --leak-check=no "$@"
}

# The tests of the crates, each counted; a failure without a count is one.
crate_tests() {
    start=$(date +%s)
    crates test --workspace --no-fail-fast >"$work/tests" 2>&1
    status=$?
    good=$(awk '/^test result:/ { n += $4 } END { print n + 0 }' "$work/tests")
    bad=$(awk '/^test result:/ { n += $6 } END { print n + 0 }' "$work/tests")
    if [ "$bad" -eq 0 ] && { [ "$status" -ne 0 ] || [ "$good" -eq 0 ]; }; then
        bad=1
    fi
    passed=$((passed + good))
    failed=$((failed + bad))
    echo "host: $good tests of the crates, $(($(date +%s) - start)) s"
    if [ "$bad" -ne 0 ]; then
        echo "host: failed: $bad tests of the crates"
        tail -20 "$work/tests" | cut -c1-300 | sed 's/^/  /'
    fi
}

# A fault put in on one side is found: the comparison ends with status 1 and says where.
finds() {
    crates run -q -p differential --no-default-features -- --calls 100000 --fault "$1"
    [ $? -eq 1 ] && grep -q '^differential: failed: seed ' "$work/said"
}

# The version that the header says is the crate's.
versions() {
    header=$(sed -n 's/^#define GV_VERSION "\(.*\)"$/\1/p' bindings/c/gevnyusto.h)
    crate=$(sed -n 's/^version = "\(.*\)"$/\1/p' bindings/rust/Cargo.toml)
    echo "header $header, crate $crate"
    [ -n "$header" ] && [ "$header" = "$crate" ]
}

# An example in C by its name: compiled, what it prints, and the same under valgrind.
example() {
    try "$1.c, compiled" cc -O1 -Wall -Wextra -Werror "bindings/c/$1.c" -L "$GEVNYUSTO_LIB" -lhost -o "$work/$1"
    try "$1.c" prints "bindings/c/$1.out" "$work/$1"
    try "$1.c under valgrind" prints "bindings/c/$1.out" careful "$work/$1"
}

want cc gcc
want c++ g++
want valgrind valgrind
. tests/fresh.sh
try "the library" library host "$work/library"

try "the header in C++" c++ -fsyntax-only -Wall -Wextra -Werror -x c++ bindings/c/gevnyusto.h
try "the version of header and crate" versions
example table_p
example two_offices
example closed_month
example one_import
example slow_links
try "the example in Rust" \
    prints bindings/rust/examples/table_p.out crates run -q -p gevnyusto --example table_p
crate_tests

try "the comparison, compiled" crates build -p differential
try "a million calls and 200,000 merges compared" "$differential" --calls 1000000 --merges 200000
sed 's/^/  /' "$work/said"
# Every word is answered in these 2,000 calls, and days and units decide all that they can; in those 13,000 calls words
# of sixty-four messages, closed days and backoff tables do, the common messages are used and a board is filled, counts
# and backoff tables are set in every way, and openings refused on every ground.
try "the comparison under valgrind" careful "$differential" --calls 2000 --merges 1000 --seed 574
try "looks by words, closed days, shares and rests under valgrind" \
    careful "$differential" --calls 13000 --merges 0 --seed 452
for fault in list refusal read reading merge law number newest tie hand \
    no-unit unit-alone unit-at-1 unit-at-0 mark last-byte \
    past-the-count lowest-bit zero-word next-bit last-bit whole-word mark-past \
    half-property half-unit \
    close-day-open cents-first channel-last none-as-0 none-as-any \
    earlier-close equal-close close-signal unwritten-close close-sender \
    share-15 share-17 common-511 common-513 eaten-shares used-before-day used-before-cents \
    refused-counts no-sum no-parts sum-modulo \
    next-entry entry-16-for-15 entry-15-for-16 beyond-16 built-in-read built-in-kept rests-65 rests-64 first-entry \
    last-falls empty-as-none length-modulo rests-before-table length-before-rests sound-65 sound-falls \
    sound-low-byte rests-written half-opened; do
    try "a fault put in: $fault" finds "$fault"
done

echo "host: $passed passed, $failed failed"
[ "$failed" -eq 0 ]
