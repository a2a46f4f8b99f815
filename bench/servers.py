"""The servers that are measured, each as a process of its own on a free port of 127.0.0.1, and what Linux says of a process."""
import contextlib
import os
import shutil
import signal
import struct
import subprocess
import sys
import time

HERE = os.path.dirname(os.path.realpath(__file__))
TOP = os.path.dirname(HERE)
sys.path.append(f"{TOP}/tests")
# for the scripts of this folder too
from common import ALL_PLACES, asked, free_port, wait_for
from common import host as program

ENDLESS = "4294967295"
GREATEST = "2147483647"
SHARED_MEMORY = "0xbeeb0008"
COUNTS = struct.Struct("=QQ")


def has_word(host, word):
    """Whether the program's server has a word of this name."""
    output = subprocess.run([host, "serve", "--help"], stdout=subprocess.PIPE, text=True, timeout=10, check=False).stdout
    return word in output


def is_daily(host):
    """Whether the program has the server for daily use."""
    return has_word(host, "--quiet")


def compiled(folder):
    """The programs in C of this folder, by name, with the library that counts what a process writes. The one over SQLite is left out where its library isn't there."""
    made = {}
    for name in ("load", "bare", "inetd"):
        made[name] = f"{folder}/{name}"
        subprocess.run(["cc", "-O2", "-o", made[name], f"{HERE}/{name}.c"], check=True, timeout=60)
    made["counted"] = f"{folder}/counted.so"
    subprocess.run(["cc", "-O2", "-shared", "-fPIC", "-o", made["counted"], f"{HERE}/counted.c", "-ldl"], check=True, timeout=60)
    if not subprocess.run(["cc", "-O2", "-o", f"{folder}/rows", f"{HERE}/rows.c", "-lsqlite3"], stderr=subprocess.DEVNULL, check=False, timeout=60).returncode:
        made["rows"] = f"{folder}/rows"
    return made


def end(server):
    """Ends a server with the processes that it started."""
    if server.poll() is not None:
        return
    os.killpg(server.pid, signal.SIGTERM)
    try:
        server.wait(timeout=5)
    except subprocess.TimeoutExpired:
        os.killpg(server.pid, signal.SIGKILL)
        server.wait()


@contextlib.contextmanager
def running(words, port, patience=60, env=None):
    """A server that takes connections, until the block ends."""
    server = subprocess.Popen(words, stdin=subprocess.DEVNULL, stdout=subprocess.DEVNULL, start_new_session=True, env=env)
    try:
        wait_for(server, port, patience)
        yield server
    finally:
        end(server)


def serve_words(host, image, together, daily):
    """The words that serve an image at the site's port."""
    places = ALL_PLACES if daily and has_word(host, ALL_PLACES[0]) else ()
    return [host, "serve", image, "--quiet", *places] if daily else [host, "serve", image, "--together", str(together), "--rounds", ENDLESS]


class Counts:
    """What a process, begun with `env`, has synced and written so far, by the library that counts it."""

    def __init__(self, library, file):
        self.file = file
        with open(file, "wb") as it:
            it.write(bytes(COUNTS.size))
        self.env = {**os.environ, "LD_PRELOAD": library, "COUNTS": file}

    def now(self):
        """The syncs, and the bytes that were written."""
        with open(self.file, "rb") as it:
            return COUNTS.unpack(it.read(COUNTS.size))


def bare_words(bare, port, replies):
    """The words of a bare socket server, where `replies` are files by selector."""
    return [bare, str(port), *(word for pair in replies.items() for word in pair)]


def gophernicus():
    """The program of Debian's gophernicus, or nothing."""
    return shutil.which("gophernicus", path="/usr/sbin:/usr/bin:" + os.environ.get("PATH", ""))


def gophernicus_words(inetd, port, root):
    """gophernicus as inetd runs it. Its log is off, header and footer of menus are, and it holds back no client that asks often."""
    options = ["-h", "localhost", "-p", str(port), "-r", root, "-ns", "-nh", "-nf", "-nr", "-i", GREATEST, "-k", GREATEST]
    return [inetd, str(port), gophernicus(), *options]


def has_shared_memory():
    output = subprocess.run(["ipcs", "-m"], stdout=subprocess.PIPE, text=True, timeout=10, check=False).stdout
    return SHARED_MEMORY in output


@contextlib.contextmanager
def own_shared_memory():
    """The processes of gophernicus share a piece of memory, which stays behind. It is removed where it was not there before."""
    was_there = has_shared_memory()
    try:
        yield
    finally:
        time.sleep(0.5)
        if not was_there and has_shared_memory():
            subprocess.run(["ipcrm", "-M", SHARED_MEMORY], timeout=10, check=False)


def processor_seconds(pid):
    """How long a process has used a processor, in its own code and in the system's."""
    with open(f"/proc/{pid}/stat", encoding="ascii") as it:
        fields = it.read().rpartition(")")[2].split()
    return (int(fields[11]) + int(fields[12])) / os.sysconf("SC_CLK_TCK")


def memory(pid, name):
    """What the system says of a process's memory under this name, in KiB."""
    with open(f"/proc/{pid}/status", encoding="ascii") as it:
        return next(int(line.split()[1]) for line in it if line.startswith(f"{name}:"))


def peak_memory(pid):
    """The most memory that a process has had resident, in KiB."""
    return memory(pid, "VmHWM")
