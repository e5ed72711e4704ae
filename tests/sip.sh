#!/bin/sh
# sip.sh [LIBRARY]: requests as they come from the wire, through the library and the second program: those of tests/sip, and those
# that sipp (Debian's sip-tester) sends by UDP, its own scenario uac and the scenarios of tests/sip. Both must answer alike, and as
# tests/sip/expected says. Without sipp, or without UDP on loopback, it leaves out what sipp sends, and says so.
set -eu
cd "$(dirname "$0")/.."
. tests/over.sh
if [ $# -eq 0 ]; then make_library ifc; else lib=$1; fi
out=target/tests/sip.d
rm -rf "$out"
mkdir -p "$out"
LC_ALL=C TERM=dumb
export LC_ALL TERM

# Sends each scenario to the receiver, which keeps what comes in.
send_all() {
    python3 tests/sip/receive.py "$out" &
    receiver=$!
    trap 'kill "$receiver"' EXIT
    while [ ! -f "$out/port" ]; do
        kill -0 "$receiver" 2>/dev/null || { echo "sip: the receiver does not run"; trap - EXIT; exit 1; }
        sleep 0.1
    done
    send uac -sn uac -d 10
    for file in tests/sip/*.xml; do send "$(basename "$file" .xml)" -sf "$PWD/$file"; done
    kill "$receiver"
    trap - EXIT
}

# send NAME HOW..
send() {
    name=$1
    shift
    if ! (cd "$out" && sipp "$@" -m 1 -i 127.0.0.1 -cid_str "$name.%u" -timeout 20s -timeout_error "127.0.0.1:$(cat port)" \
        </dev/null >"$name.log" 2>&1); then
        cat "$out/$name.log"
        echo "sip: sipp failed on $name"
        exit 1
    fi
}

# sipp is here, and a datagram that is sent to this machine arrives.
wire() {
    command -v sipp >/dev/null 2>&1 && python3 -c '
import socket
s = socket.socket(socket.AF_INET, socket.SOCK_DGRAM)
s.bind(("127.0.0.1", 0))
s.settimeout(5)
s.sendto(b"x", s.getsockname())
s.recv(1)' 2>/dev/null
}

grep -v '^#' tests/sip/expected >"$out/expected"
set -- tests/sip/*.sip
if wire; then
    send_all
    set -- "$@" "$out"/*.sip
else
    echo "sip: LEFT OUT: the requests that sipp sends; no sipp here (Debian's sip-tester), or no UDP on loopback"
    sed '/^# sent by sipp/,$d' tests/sip/expected | grep -v '^#' >"$out/expected"
fi
CFLAGS_X86="-O2 -Wall -Wextra -Werror -Iinclude" sh tests/cc-x86.sh build "$out/sip" tests/sip.c "$lib"
sh tests/cc-x86.sh run "$out/sip" "$out/cases" "$out/answers" "$@" >"$out/told"
diff "$out/expected" "$out/told"
cargo build --release --offline --quiet --manifest-path second/Cargo.toml --target-dir target/tests/second
target/tests/second/release/second compare "$out/cases" "$out/answers"
echo "sip: ok ($# requests)"
