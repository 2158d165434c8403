"""What `.ci/desk` and the checks of examples try a desk with: the reports, servers of a program, the bytes of requests and answers."""
import contextlib
import http.client
import os
import pathlib
import re
import socket
import subprocess
import sys
import tempfile
import time

TOP = pathlib.Path(__file__).resolve().parent.parent
SITE = TOP / "cases" / "one-whole" / "site.toml"
SCHOOL = TOP / "cases" / "school"
TRIALS = TOP / "crates" / "trials"
HOST = "127.0.0.1"
SECONDS = 10  # that one connection may take
PHRASES = {200: "OK", 400: "Bad Request", 403: "Forbidden", 404: "Not Found", 405: "Method Not Allowed", 409: "Conflict",
           411: "Length Required", 413: "Payload Too Large", 501: "Not Implemented"}
program = pathlib.Path(os.environ.get("PROGRAM", TOP / "crates" / "panel_main" / "out" / "panel_main"))
name = pathlib.Path(sys.argv[0]).name
failed = 0


def fail(what):
    global failed
    failed += 1
    print(f"{name}: {what}")


def skip(what):
    print(f"{name}: {what}: not tried", file=sys.stderr)


def guarded(tried, *given):
    """Tries something; what stops it is a failure of its own."""
    try:
        tried(*given)
    except (OSError, ValueError, TypeError, subprocess.SubprocessError, http.client.HTTPException) as trouble:
        fail(f"{tried.__name__}: {trouble!r}")


def expect(what, got, wanted):
    if got != wanted:
        fail(f"{what}: {got!r}, wanted {wanted!r}")


def answer(status, body, kind="application/json"):
    """The bytes of an answer."""
    return f"HTTP/1.1 {status} {PHRASES[status]}\r\nContent-Type: {kind}\r\nConnection: close\r\n\r\n{body}".encode()


def request(method, path, body=""):
    return f"{method} {path} HTTP/1.1\r\nHost: {HOST}\r\nContent-Length: {len(body)}\r\n\r\n{body}".encode()


def free_port():
    with socket.socket() as one:
        one.bind((HOST, 0))
        return one.getsockname()[1]


def is_open(port):
    """Whether somebody listens at a port of the loopback address, found without a connection."""
    wanted = f"0100007F:{port:04X} 00000000:0000 0A"
    return wanted in pathlib.Path("/proc/net/tcp").read_text()


class Server:
    """A program that serves so many connections of a site, over a journal in a new folder."""

    def __init__(self, room, count, site=SITE, journal=None, port=None):
        self.port = port or free_port()
        self.journal = journal or pathlib.Path(tempfile.mkdtemp(dir=room)) / "journal"
        self.child = subprocess.Popen([program, *self.words(site, str(count))], stdin=subprocess.DEVNULL, stdout=subprocess.PIPE, stderr=subprocess.STDOUT)
        until = time.monotonic() + 10
        while not is_open(self.port) and self.child.poll() is None and time.monotonic() < until:
            time.sleep(0.005)

    def words(self, site, count):
        return ["serve", site, self.journal, str(self.port), count]

    def __enter__(self):
        return self

    def __exit__(self, *_):
        self.child.kill()
        self.child.wait()
        self.child.stdout.close()

    def end(self):
        """The status with which it ends, and all that it printed."""
        text = self.child.communicate(timeout=30)[0].decode()
        return self.child.returncode, text

    def connect(self):
        one = socket.create_connection((HOST, self.port), timeout=1.5 * SECONDS)
        one.setsockopt(socket.IPPROTO_TCP, socket.TCP_NODELAY, 1)
        return one

    def ask(self, *pieces):
        """What is answered to these bytes, behind which nothing more comes."""
        with self.connect() as one:
            with contextlib.suppress(BrokenPipeError, ConnectionResetError):
                for piece in pieces:
                    one.sendall(piece)
                one.shutdown(socket.SHUT_WR)
            return all_of(one)

    def state(self):
        """How many descriptors it has when it waits, and the kB of its resident memory."""
        process, counts = pathlib.Path(f"/proc/{self.child.pid}"), []
        for _ in range(50):
            counts.append(len(list((process / "fd").iterdir())))
            time.sleep(0.002)
        resident = re.search(r"VmRSS:\s*(\d+) kB", (process / "status").read_text())[1]
        return min(counts), int(resident)


def all_of(one):
    told = b""
    with contextlib.suppress(ConnectionResetError):
        while piece := one.recv(65_536):
            told += piece
    return told
