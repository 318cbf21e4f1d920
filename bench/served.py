"""A running `amring serve` and requests to it, for the benches that serve clients over sockets."""
import os
import re
import signal
import socket
import subprocess
import tempfile
import time

ROOT = os.path.dirname(os.path.dirname(os.path.abspath(__file__)))
PROGRAM = os.path.join(ROOT, "crates", "amring", "out", "amring")
ALERTS = "/alertmanager/api/v2/alerts"
SILENCES = "/alertmanager/api/v2/silences"
CONFIGURATION = "/api/v1/alerts"
# As bin/amring sets them: else the C library gives memory back after each long reply, and takes it again for the next.
KEEPS_MEMORY = {"MALLOC_TRIM_THRESHOLD_": "134217728", "MALLOC_MMAP_THRESHOLD_": "33554432"}
# How long a start may take, and an answer, in seconds.
START = 60
ANSWER = 10
# How long lies between two looks at whether a program answers, in seconds.
A_LOOK = 0.005


def free_port():
    with socket.socket() as probe:
        probe.bind(("127.0.0.1", 0))
        return probe.getsockname()[1]


def resident(process):
    """The resident size of a process in KiB."""
    with open(f"/proc/{process.pid}/status", encoding="utf-8") as status:
        return int(re.search(r"VmRSS:\s+(\d+)", status.read()).group(1))


def request(method, path, body=b"", length=None, tenant="bench"):
    """The bytes of a request; `length` is told in place of the body's own."""
    head = f"{method} {path} HTTP/1.1\r\nHost: amring\r\nX-Scope-OrgID: {tenant}\r\n"
    head += f"Content-Length: {len(body) if length is None else length}\r\n\r\n"
    return head.encode() + body


def connect(port):
    return socket.create_connection(("127.0.0.1", port), timeout=ANSWER)


def ask(port, data):
    """Sends a request and gives the bytes of the whole reply."""
    with connect(port) as client:
        client.sendall(data)
        parts = []
        while part := client.recv(65536):
            parts.append(part)
        return b"".join(parts)


def read_reply(data):
    """The status and the body of a whole reply; a `ConnectionError` where it isn't whole."""
    head, found, told = data.partition(b"\r\n\r\n")
    words = head.split(b" ", 2)
    lengths = [line[15:] for line in head.lower().split(b"\r\n") if line.startswith(b"content-length:")]
    if not found or len(words) < 2 or len(lengths) != 1 or len(told) != int(lengths[0]):
        raise ConnectionError("no whole reply")
    return int(words[1]), told


def reply_to(port, method, path, tenant, body=b""):
    """The status and the body of a whole reply; an `OSError` where none comes."""
    return read_reply(ask(port, request(method, path, body, tenant=tenant)))


class Program:
    """A running `amring serve` with these options."""

    def __init__(self, program, *options):
        self.port = free_port()
        self.errors = tempfile.TemporaryFile()
        command = [program, "serve", "--port", str(self.port), *options]
        self.begun = time.monotonic()
        self.process = subprocess.Popen(
            command,
            stdin=subprocess.DEVNULL,
            stdout=subprocess.DEVNULL,
            stderr=self.errors,
            env={**os.environ, **KEEPS_MEMORY},
        )

    def wait_until_ready(self):
        """Whether it answers that it is ready before it ends or too much time has passed."""
        end = time.monotonic() + START
        while time.monotonic() < end and self.process.poll() is None:
            try:
                if reply_to(self.port, "GET", "/ready", "a") == (200, b"ready"):
                    return True
            except (OSError, ValueError):
                time.sleep(A_LOOK)
        return False

    def told(self):
        """What it wrote to standard error so far. Where it writes next isn't moved by that."""
        return os.pread(self.errors.fileno(), 1 << 20, 0).decode(errors="replace").strip()

    def resident(self):
        """Its resident size in KiB."""
        return resident(self.process)

    def kill(self):
        """`kill -9`, where it still runs."""
        if self.process.poll() is None:
            self.process.send_signal(signal.SIGKILL)
            self.process.wait()
        self.errors.close()
