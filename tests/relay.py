#!/usr/bin/env python3
"""A small relay for the test with curl: it takes connections on loopback one after another, and gives each to a run of
`vnfm once` of its own as standard input and standard output.

    tests/relay.py PROGRAM JOURNAL CONNECTIONS     prints the port, serves so many connections, and ends

Ends with 1 where a run's status isn't 0."""
import socket
import subprocess
import sys


def main():
    program, journal, connections = sys.argv[1], sys.argv[2], int(sys.argv[3])
    with socket.create_server(("127.0.0.1", 0)) as door:
        door.settimeout(60)
        print(door.getsockname()[1], flush=True)
        for _ in range(connections):
            connection, _ = door.accept()
            with connection:
                ran = subprocess.run([program, "once", "--journal", journal], stdin=connection, stdout=connection, timeout=60)
            if ran.returncode:
                sys.exit(1)


if __name__ == "__main__":
    main()
