#!/bin/sh
# The check of the second program: its tests, its mutants on a short run of cases, and that the kept cases and answers are those
# that it makes today.
# Build output goes to CARGO_TARGET_DIR, or to target/ beside this script.
set -eu

case "${CARGO_TARGET_DIR:-}" in
    '') ;;
    /*) ;;
    *) CARGO_TARGET_DIR=$PWD/$CARGO_TARGET_DIR ;;
esac
cd "$(dirname "$0")"
CARGO_TARGET_DIR=${CARGO_TARGET_DIR:-$PWD/target}
RUSTFLAGS='-D warnings'
export CARGO_TARGET_DIR RUSTFLAGS

cargo test --release --offline --quiet

made=$(mktemp -d)
report=$made/report
trap 'rm -rf "$made"' EXIT
if ! cargo run --release --offline --quiet --features twists -- mutants 1 4000 > "$report"; then
    grep -v '^told' "$report"
    exit 1
fi
grep -v '^told' "$report"

# Leaves the plain program behind, not the one with mutants in it.
cargo build --release --offline --quiet
./kept.sh "$CARGO_TARGET_DIR/release/second" "$made"
kept=../crates/vectors/data
if ! cmp "$made/cases" "$kept/cases" || ! cmp "$made/answers" "$kept/answers"; then
    echo "the kept cases are not those made today: kept.sh writes them to $kept"
    exit 1
fi
echo 'second: ok'
