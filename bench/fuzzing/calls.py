"""Calls of the program, and the process that makes them."""
import collections
import os
import subprocess
import sys
import tempfile

SECONDS, CLOCK, RESIDENT, RESIDENT_WITH_REGISTER = 5, 30, 20 * 1024, 64 * 1024
# the tree of a hostile document takes up to some 600 bytes for each of its own
SMALL, RESIDENT_OF_A_BYTE = 16_384, 5 / 8
BATCH = 16
# A call: its words, in which the name of a file stands for its path, and what the files SITE, JOURNAL, OTHER and TARGET hold before it: bytes,
# None for no file, or of the last three "left" for that of the call before and "moved" for the TARGET of the call before as JOURNAL. `look` is
# handed the paths of JOURNAL and TARGET behind the call, where no later one goes on with them.
Call = collections.namedtuple("Call", "words site input journal expected other target look", defaults=(None, None, None))
FILES = ("SITE", "JOURNAL", "OTHER", "TARGET")


class Unexpected(Exception):
    """What the program did otherwise."""


# Makes the calls. It stands in a small process of its own, since Linux counts the memory of the caller in what it tells of a child.
CALLER = """
import os, signal, sys
signal.signal(signal.SIGALRM, lambda *_: os.kill(child, signal.SIGKILL))
for line in sys.stdin.buffer:
    streams, *words = line.split()
    words = [bytes.fromhex(word[1:].decode()) for word in words]
    actions = [(os.POSIX_SPAWN_DUP2, int(stream), number) for number, stream in enumerate(streams.split(b","))]
    child = os.posix_spawn(words[0], words, {}, file_actions=actions)
    signal.alarm(int(sys.argv[1]))
    _, status, used = os.wait4(child, 0)
    signal.alarm(0)
    os.write(1, b"%d %f %d\\n" % (status, used.ru_utime + used.ru_stime, used.ru_maxrss))
"""


class Desk:
    """The files of one call, in memory where there is a folder for it."""

    def __init__(self, room, number):
        self.own = {name: f"{room}/{name.lower()}-{number}" for name in FILES}
        self.streams = [os.open(f"{room}/{name}-{number}", os.O_RDWR | os.O_CREAT) for name in ("input", "text", "errors")]
        self.written, self.paths = None, dict(self.own)

    def lay(self, program, call, before):
        """Writes the files of a call; `before` has the paths that the call before used."""
        if call.site != self.written:
            with open(self.own["SITE"], "wb") as out:
                out.write(call.site)
            self.written = call.site
        self.paths = dict(self.own)
        for name, held in (("JOURNAL", call.journal), ("OTHER", call.other), ("TARGET", call.target)):
            if held in ("left", "moved"):
                self.paths[name] = before["TARGET" if held == "moved" else name]
            else:
                put(self.own[name], held)
        for stream, data in zip(self.streams, (call.input, b"", b"")):
            os.ftruncate(stream, 0)
            os.pwrite(stream, data, 0)
            os.lseek(stream, 0, os.SEEK_SET)
        given = self.paths | {name.encode(): path for name, path in self.paths.items()}
        words = [program, *(given.get(word, word) for word in call.words)]
        said = b" ".join(b"x" + os.fsencode(word).hex().encode() for word in words)
        return ",".join(map(str, self.streams)).encode() + b" " + said + b"\n"

    def read(self, number):
        stream = self.streams[number]
        return os.pread(stream, os.fstat(stream).st_size, 0)


def put(path, held):
    """Makes a file hold these bytes, or removes it; what a database left beside it goes too."""
    for each in (path, path + "-journal"):
        if os.path.exists(each):
            os.unlink(each)
    if held is not None:
        with open(path, "wb") as out:
            out.write(held)


def held_in(path):
    """The bytes of a file, None where there is none."""
    if not os.path.exists(path):
        return None
    with open(path, "rb") as file:
        return file.read()


class Caller:
    """Makes calls in batches, so that inputs are drawn while the program runs."""

    def __init__(self, program):
        self.program = os.path.abspath(program)

    def __enter__(self):
        self.room = tempfile.TemporaryDirectory(dir="/dev/shm" if os.path.isdir("/dev/shm") else None)
        self.desks, self.resident = [Desk(self.room.name, number) for number in range(2 * BATCH)], 0
        streams = [stream for desk in self.desks for stream in desk.streams]
        caller = [sys.executable, "-I", "-S", "-c", CALLER, str(CLOCK)]
        self.child = subprocess.Popen(caller, stdin=subprocess.PIPE, stdout=subprocess.PIPE, pass_fds=streams,
                                      cwd=self.room.name)
        return self

    def __exit__(self, *_):
        self.child.stdin.close()
        self.child.wait()
        self.room.cleanup()

    def begin(self, calls):
        """Begins a batch of at most BATCH calls; of two batches that are under way the files differ."""
        self.desks = self.desks[BATCH:] + self.desks[:BATCH]
        paths, lines = None, []
        for desk, call in zip(self.desks, calls):
            lines.append(desk.lay(self.program, call, paths))
            paths = desk.paths
        self.child.stdin.write(b"".join(lines))
        self.child.stdin.flush()
        return list(zip(self.desks, calls))

    def answer(self, desk, call):
        """The status of a call that was begun, and its text; raises what is unexpected of every call."""
        status, seconds, resident = self.child.stdout.readline().split()
        status, seconds, errors = int(status), float(seconds), desk.read(2)
        if os.WIFSIGNALED(status):
            raise Unexpected(f"ended by signal {os.WTERMSIG(status)}, 9 where it wasn't over after {CLOCK} seconds")
        if errors:
            raise Unexpected(f"on standard error: {errors[:200]}")
        if seconds > SECONDS:
            raise Unexpected(f"{seconds:.1f} seconds of processor time")
        size, most = len(call.site), RESIDENT_WITH_REGISTER if call.words[:1] in (["import"], [b"import"]) else RESIDENT
        if int(resident) > most + (RESIDENT_OF_A_BYTE * size if size > SMALL else 0):
            raise Unexpected(f"{int(resident)} kB of resident memory")
        self.resident = max(self.resident, int(resident))
        return os.WEXITSTATUS(status), desk.read(1)
