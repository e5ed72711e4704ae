"""receive.py DIRECTORY: takes SIP requests by UDP on loopback, keeps each as DIRECTORY/NAME-METHOD.sip and answers it with 200.

NAME is what the Call-ID begins with, up to its first dot. The port is written to DIRECTORY/port. Ends when it is told to."""
import os
import re
import socket
import sys

directory = sys.argv[1]
sock = socket.socket(socket.AF_INET, socket.SOCK_DGRAM)
sock.bind(("127.0.0.1", 0))
with open(os.path.join(directory, "port.new"), "w") as out:
    out.write(str(sock.getsockname()[1]))
os.rename(os.path.join(directory, "port.new"), os.path.join(directory, "port"))
while True:
    datagram, sender = sock.recvfrom(65536)
    method = datagram.split(b" ", 1)[0].decode()
    name = re.search(rb"\r\n(?:Call-ID|i)[ \t]*:[ \t]*([a-z]+)\.", datagram, re.I).group(1).decode()
    with open(os.path.join(directory, name + "-" + method + ".sip"), "wb") as out:
        out.write(datagram)
    if method == "ACK":
        continue
    head = datagram.split(b"\r\n\r\n", 1)[0] + b"\r\n"
    copied = re.findall(rb"\r\n((?:Via|v|From|f|To|t|Call-ID|i|CSeq)[ \t]*:.*?)(?=\r\n[^ \t]|\r\n$)", head, re.I | re.S)
    sock.sendto(b"\r\n".join([b"SIP/2.0 200 OK"] + copied + [b"Content-Length: 0", b"", b""]), sender)
