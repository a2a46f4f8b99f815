"""What the scripts that run the program share: which program it is, running it, a free port, a server's socket, and the count of what passed."""
import contextlib
import functools
import os
import shutil
import signal
import socket
import subprocess
import time

TOP = os.path.dirname(os.path.dirname(os.path.realpath(__file__)))
# how long a command, a connection or a server's start may take
PATIENCE = 120
# words by which a server for daily use lets in as many clients of one address as it has places
ALL_PLACES = ("--per-address", "32")
# sockets of such a server that has no client: where clients come, and where administrators do
IDLE_SOCKETS = 2


@functools.cache
def host():
    """The program: the one that GOPHER_HOST names, else what ./gopher_host takes, which is made first where it isn't there."""
    ran = subprocess.run([f"{TOP}/gopher_host", "--program"], stdin=subprocess.DEVNULL, stdout=subprocess.PIPE, text=True, check=False)
    if ran.returncode:
        raise SystemExit("there is no program")
    return ran.stdout.removesuffix("\n")


def run(*words, patience=PATIENCE):
    """A command of the program that has ended, with what it printed."""
    return subprocess.run([host(), *words], stdin=subprocess.DEVNULL, stdout=subprocess.PIPE, stderr=subprocess.PIPE, text=True, timeout=patience, check=False)


def printed(*words):
    """What a command of the program prints. It has to end well."""
    ran = run(*words)
    if ran.returncode:
        raise SystemExit(f"'{' '.join(words)}' ended with {ran.returncode}: {ran.stderr}")
    return ran.stdout


def made(image, changes, port, pages=1024):
    """Makes an image with the changes of a file."""
    moment = str(int(time.time()))
    printed("format", image, "--pages", str(pages), "--host", "localhost", "--port", str(port), "--admin", "Ada", "--title", "Top", "--now", moment)
    printed("apply", image, changes, "--now", moment)


def generation(image):
    """Which commit an image is of: one more for each."""
    return int(printed("check", image).split()[-1])


def free_port():
    with socket.socket() as it:
        it.bind(("127.0.0.1", 0))
        return it.getsockname()[1]


def connected(port, patience=PATIENCE):
    return socket.create_connection(("127.0.0.1", port), timeout=patience)


def rest(it, piece=1 << 16):
    """What comes until the other side closes."""
    return b"".join(iter(lambda: it.recv(piece), b""))


def asked(port, request):
    """The whole reply to a request."""
    with connected(port) as it:
        it.sendall(request)
        return rest(it)


def send_at_once(clients, requests):
    """Sends each connected client's request: first all but the last byte of each, and then these bytes, one right behind the other."""
    for it, request in zip(clients, requests, strict=True):
        it.setsockopt(socket.IPPROTO_TCP, socket.TCP_NODELAY, 1)
        it.sendall(request[:-1])
    for it, request in zip(clients, requests):
        it.sendall(request[-1:])


def wait_for(server, port, patience=PATIENCE):
    """Waits until a server takes connections."""
    end_of_patience = time.monotonic() + patience
    while time.monotonic() < end_of_patience:
        if server.poll() is not None:
            raise SystemExit(f"{server.args} ended with {server.returncode}")
        with contextlib.suppress(OSError), connected(port):
            return
        time.sleep(0.001)
    server.kill()
    raise SystemExit(f"{server.args} takes no connections")


def failing_calls(folder):
    """The library that lists a program's calls on files, and fails one of them (fail_call.c); None where it can't be compiled."""
    kit, library = os.path.dirname(os.path.dirname(os.path.realpath(shutil.which("rt") or "/opt/rattle/bin/rt"))), f"{folder}/fail_call.so"
    compiler = shutil.which("cc") or f"{kit}/toolchain/bin/clang"
    made = subprocess.run([compiler, "-shared", "-fPIC", "-O1", "-o", library, f"{TOP}/tests/fail_call.c", "-ldl"], check=False)
    return None if made.returncode else library


def serve(image, port, *words, log=subprocess.DEVNULL, env=None):
    """A server for daily use that takes connections on this port."""
    server = subprocess.Popen([host(), "serve", image, "--listen", f"127.0.0.1:{port}", *words], stdin=subprocess.DEVNULL, stdout=subprocess.DEVNULL, stderr=log, env=env)
    wait_for(server, port)
    return server


def end(server, how=signal.SIGTERM, patience=20):
    """Ends a server by a signal, and gives its status; None where it didn't end in time, and had to be killed."""
    server.send_signal(how)
    try:
        return server.wait(timeout=patience)
    except subprocess.TimeoutExpired:
        server.kill()
        server.wait()
        return None


def process_state(pid):
    """The letter that says what a process does: `S` where it waits, `T` where it was stopped."""
    with open(f"/proc/{pid}/stat", encoding="utf-8", errors="replace") as it:
        return it.read().rpartition(")")[2].split()[0]


def sockets(pid):
    """How many sockets a process has open."""
    count, files = 0, f"/proc/{pid}/fd"
    for it in os.listdir(files):
        with contextlib.suppress(OSError):
            count += os.readlink(f"{files}/{it}").startswith("socket:")
    return count


def wait_until(holds, what, patience=PATIENCE):
    """Waits until something holds."""
    end_of_patience = time.monotonic() + patience
    while not holds():
        if time.monotonic() > end_of_patience:
            raise SystemExit(f"not so after {patience} seconds: {what}")
        time.sleep(0.001)


def found_together(held, server, port, requests):
    """The clients of requests that a server for daily use finds whole, all of them when it looks next: it has let these clients in, and stands still while they send. It has no others."""
    wait_until(lambda: sockets(server.pid) == IDLE_SOCKETS, "the server has no client")
    clients = [held.enter_context(connected(port)) for _ in requests]
    # whoever waits has nothing left to do
    wait_until(lambda: sockets(server.pid) == IDLE_SOCKETS + len(clients) and process_state(server.pid) == "S", "the server has let all clients in")
    server.send_signal(signal.SIGSTOP)
    try:
        wait_until(lambda: process_state(server.pid) == "T", "the server stands still")
        for it, request in zip(clients, requests):
            it.sendall(request)
    finally:
        server.send_signal(signal.SIGCONT)
    return clients


class Tally:
    """What passed and what failed of a script."""

    def __init__(self, name):
        self.name, self.passed, self.failed = name, 0, 0

    def check(self, what, is_right, got=""):
        if is_right:
            self.passed += 1
        else:
            self.failed += 1
            print(f"{self.name}: {what}: {got!r}"[:600], flush=True)

    def told(self):
        """Prints the last line, and gives the script's status."""
        print(f"{self.passed} passed, {self.failed} failed")
        return 0 if self.passed and not self.failed else 1
