#!/bin/sh
# examples.sh OUT LIBRARY..: builds the examples and holds what they print against what was worked out by hand.
set -eu
cd "$(dirname "$0")/.."
out=$1
shift
for name in desk controller; do
    CFLAGS_X86="-O2 -Wall -Wextra -Werror -Iinclude" sh tests/cc-x86.sh build "$out/$name" "examples/$name.c" "$@"
    sh tests/cc-x86.sh run "$out/$name" examples >"$out/$name.out"
    grep -v '^#' "examples/$name.expected" | diff - "$out/$name.out"
done
echo "examples: ok"
