"""Sends a start truncated at each length, and after it what `redis-cli --pipe` sends at its end.

    python3 cut.py START SOCKET     a file with the start, and the socket of a Redis of its own
"""

import socket
import sys

import redis

DATABASE = 9
LINE_END = 2  # bytes that say nothing: redis-cli's own line end stands in for them

with open(sys.argv[1], "rb") as file:
    start = file.read()
path = sys.argv[2]
server = redis.Redis(unix_socket_path=path, db=DATABASE)
behind = b"\r\n*2\r\n$4\r\nECHO\r\n$20\r\n" + b"0123456789abcdefghij" + b"\r\n"


def send(text):
    with socket.socket(socket.AF_UNIX) as link:
        link.settimeout(30)
        link.connect(path)
        link.sendall(b"*2\r\n$6\r\nSELECT\r\n$1\r\n%d\r\n" % DATABASE + text)
        link.shutdown(socket.SHUT_WR)
        while link.recv(65536):
            pass


for length in range(len(start) - LINE_END):
    send(start[:length] + behind)
    if server.dbsize():
        sys.exit(f"something was started by the first {length} of {len(start)} bytes")
send(start)
if not server.dbsize():
    sys.exit("nothing was started by the whole")
server.flushdb()
print(f"nothing was started by any of its {len(start) - LINE_END} cuts")
