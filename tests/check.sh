#!/bin/sh
# What docs/STATEMENTS.md names exists, and its reading order is that of the files. The library from C: the header, the archive's names,
# what is installed, document 01's worked images and its marked trigger, what is shown of a row, reports in bulk, the plain matcher, the
# examples, requests from the wire, threads, stack, garbage; then the fixed cases of the second program and COUNT random ones from SEED;
# 200,000 pairs asked of both matchers. Patterns from C, on three times as many blocks of lines; and the reading of requests, with the end
# of the head at every place, and on 50,000 random ones.
# check.sh [SEED COUNT]
set -eu
cd "$(dirname "$0")/.."
seed=${1:-1} count=${2:-20000}
out=target/tests
. tests/over.sh

# build NAME FILE..
build() {
    program=$1
    shift
    CFLAGS_X86="-O2 -Wall -Wextra -Werror" sh tests/cc-x86.sh build "$out/$program" "$@"
}
run() {
    program=$1
    shift
    sh tests/cc-x86.sh run "$out/$program" "$@"
}
compare() {
    run "$1" "$out/made" "$out/answers"
    "$second" compare "$out/made" "$out/answers"
}

python3 tests/statements.py
python3 tests/believe.py
make_library ifc
make_library probes
cargo build --release --offline --quiet --manifest-path second/Cargo.toml --target-dir "$out/second"
second=$out/second/release/second
sh tests/symbols.sh "$lib"
sh tests/cc-x86.sh judge tests/header.c
sh tests/install.sh
build worked tests/worked.c "$lib"
run worked
sh tests/examples.sh "$out" "$lib"
sh tests/sip.sh "$lib"
for name in marked shown reports plain threads stack garbage; do
    build "$name" "tests/$name.c" "$lib"
    run "$name"
done
"$second" make "$seed" "$count" >"$out/made"
build cases tests/cases.c "$lib"
compare cases
"$second" pairs make "$seed" 200000 >"$out/pairs"
run cases "$out/pairs" "$out/answers"
"$second" pairs compare "$out/pairs" "$out/answers"
build lines tests/lines.c target/staticlib/libprobes.a
"$second" lines make "$seed" "$((3 * count))" >"$out/made-lines"
run lines "$out/made-lines" "$out/met"
"$second" lines compare "$out/made-lines" "$out/met"
build parts tests/parts.c target/staticlib/libprobes.a
"$second" parts make "$seed" 50000 >"$out/requests"
run parts "$out/requests" "$out/counts"
"$second" parts compare "$out/requests" "$out/counts"
