#!/bin/sh
# symbols.sh ARCHIVE: the public names of the archive are exactly the calls that include/ifc.h declares, and it needs none but the two that
# the header says.
set -eu
cd "$(dirname "$0")/.."
declared=$(sed -n 's/^uint32_t \(ifc_[a-z]*\)(.*/\1/p' include/ifc.h | sort)
public=$(nm --defined-only --extern-only "$1" | sed -n 's/^[0-9a-f]* [A-Z] //p' | sort)
if [ "$declared" != "$public" ]; then
    echo "symbols: the header declares" $declared "and the archive has" $public
    exit 1
fi
needed=$(nm --undefined-only "$1" | sed -n 's/^ *U //p' | sort -u | grep -vx 'memcpy\|memset' | tr '\n' ' ' || true)
if [ -n "$needed" ]; then
    echo "symbols: the archive needs $needed"
    exit 1
fi
echo "symbols: ok"
