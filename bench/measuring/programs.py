"""The two programs, and what is measured of a call of one: its text, instructions, time, resident memory and calls of the disk."""
import fcntl
import pathlib
import resource
import re
import subprocess
import sys
import termios
import time

from measuring.inputs import plain_site


class Program:
    """A program with the file of a site and of a journal in a folder of its own."""

    def __init__(self, name, path, folder):
        self.name, self.path, self.folder = name, path, folder / name
        self.folder.mkdir()
        self.site, self.journal = self.folder / "site", self.folder / "journal"

    def give_site(self, text):
        self.site.write_text(plain_site(text) if self.name == "plain" else text)

    def run(self, is_new=True):
        """The words of a run, over a new journal or the one that is there."""
        if is_new:
            self.journal.unlink(missing_ok=True)
        return [self.path, "run", self.site, self.journal]


def text_of(command, path):
    with open(path) as source:
        return subprocess.run(command, stdin=source, stdout=subprocess.PIPE, check=True).stdout


def instructions(command, path="/dev/null", profile="/dev/null"):
    """Those of one call, with its profile by functions where that is kept."""
    with open(path) as source:
        told = subprocess.run(
            ["valgrind", "--tool=callgrind", f"--callgrind-out-file={profile}", *command],
            stdin=source, stdout=subprocess.DEVNULL, stderr=subprocess.PIPE, text=True, check=True,
        ).stderr
    return int(re.search(r"Collected : (\d+)", told).group(1))


def processor_seconds(command, path="/dev/null"):
    """The processor time of one call, its own and the system's."""
    before = resource.getrusage(resource.RUSAGE_CHILDREN)
    with open(path) as source:
        subprocess.run(command, stdin=source, stdout=subprocess.DEVNULL, check=True)
    after = resource.getrusage(resource.RUSAGE_CHILDREN)
    return after.ru_utime + after.ru_stime - before.ru_utime - before.ru_stime


def page_faults(command, path="/dev/null"):
    """How many pages the system hands to one call."""
    before = resource.getrusage(resource.RUSAGE_CHILDREN).ru_minflt
    with open(path) as source:
        subprocess.run(command, stdin=source, stdout=subprocess.DEVNULL, check=True)
    return resource.getrusage(resource.RUSAGE_CHILDREN).ru_minflt - before


def clock_seconds(command, path="/dev/null"):
    with open(path) as source:
        started = time.monotonic()
        subprocess.run(command, stdin=source, stdout=subprocess.DEVNULL, check=True)
        return time.monotonic() - started


def state_of(child):
    return pathlib.Path(f"/proc/{child.pid}/status").read_text()


def waiting_bytes(pipe):
    return int.from_bytes(fcntl.ioctl(pipe, termios.FIONREAD, bytes(4)), sys.byteorder)


def resident(command, path):
    """The greatest resident memory in kB of a run over a record, of which the line `end` is held back until the rest was read."""
    held = path.read_bytes().removesuffix(b"end\n")
    child = subprocess.Popen(command, stdin=subprocess.PIPE, stdout=subprocess.DEVNULL)
    child.stdin.write(held)
    child.stdin.flush()
    while waiting_bytes(child.stdin) or not re.search(r"^State:\s*S", state_of(child), re.MULTILINE):
        time.sleep(0.01)
    most = int(re.search(r"VmHWM:\s*(\d+) kB", state_of(child)).group(1))
    child.stdin.write(b"end\n")
    child.stdin.close()
    if child.wait() != 0:
        sys.exit(f"the program ended with status {child.returncode}")
    return most


def disk_calls(program, path):
    """The writes and syncs of a run on its journal."""
    traced = program.folder / "traced"
    traced.unlink(missing_ok=True)
    command = program.run()
    program.journal.touch()
    watched = ["strace", "-f", "-P", program.journal, "-e", "trace=write,pwrite64,fsync,fdatasync", "-o", traced]
    text_of([*watched, *command], path)
    return len(re.findall(r"^\d+ +\w+\(", traced.read_text(), re.MULTILINE))


def function_of(profile, name):
    """The instructions of a function, of the functions with a part of their name, and of all that they call, in a profile."""
    told = subprocess.run(["callgrind_annotate", "--inclusive=yes", "--threshold=100", profile], capture_output=True, text=True, check=True).stdout
    counts = [int(count.replace(",", "")) for count, called in re.findall(r"^ *([\d,]+) \([ \d.]+%\)  (.*)$", told, re.MULTILINE) if name in called]
    return max(counts, default=None)
