"""A server that was started for clients over sockets of this machine, and what they ask of it."""
import contextlib
import os
import socket
import subprocess
import tempfile
import time

# How long a start may take, and an answer or an end, in seconds.
START = 60
PATIENCE = 20
# How long the pieces of a request lie apart, in seconds.
BETWEEN = 0.5


class Wrong(Exception):
    """Something came that shouldn't."""


def expect(what, found, wanted):
    if found != wanted:
        raise Wrong(f"{what}: {found!r} came, and not {wanted!r}")


def free_port():
    with socket.socket() as probe:
        probe.bind(("127.0.0.1", 0))
        return probe.getsockname()[1]


class Server:
    """A running `amring serve`."""

    def __init__(self, program, options):
        self.port = free_port()
        self.output, self.errors = tempfile.TemporaryFile(), tempfile.TemporaryFile()
        command = [program, "serve", "--port", str(self.port), *options]
        self.process = subprocess.Popen(command, stdin=subprocess.DEVNULL, stdout=self.output, stderr=self.errors)

    def written(self):
        """What it wrote so far, to standard output and to standard error. Where it writes next isn't moved by that."""
        return tuple(os.pread(file.fileno(), 1 << 20, 0).decode() for file in (self.output, self.errors))

    def line(self):
        """The line by which it says that it serves."""
        return f"amring: serves http://127.0.0.1:{self.port}; GET /ready tells it the time, once a second or so\n"

    def wait_until_it_serves(self):
        self.wait_until_it_tells(f"127.0.0.1:{self.port}", START)

    def wait_until_it_tells(self, text, seconds=PATIENCE):
        """Waits until it has written this to standard error."""
        end = time.monotonic() + seconds
        while text not in self.written()[1]:
            if self.process.poll() is not None or time.monotonic() > end:
                raise Wrong(f"the server doesn't tell {text!r}: {self.written()}")
            time.sleep(0.02)

    def expect_end(self):
        """It ends by itself, and says that no fault came and nothing else."""
        self.process.wait(timeout=PATIENCE)
        expect("what the server wrote", self.written(), ("faults 0\n", self.line()))
        expect("the exit status", self.process.returncode, 0)

    def stop(self):
        self.process.kill()
        self.process.wait()
        self.output.close()
        self.errors.close()


@contextlib.contextmanager
def serving(program, *options):
    """A new server, which is gone behind this, whatever happens."""
    server = Server(program, options)
    try:
        server.wait_until_it_serves()
        yield server
    finally:
        server.stop()


def connect(port):
    return socket.create_connection(("127.0.0.1", port), timeout=PATIENCE)


def rest_of(client):
    """What still comes on a connection."""
    parts = []
    while part := client.recv(65536):
        parts.append(part)
    return b"".join(parts).decode()


def ask(port, *pieces):
    """The whole reply to a request that comes in these pieces."""
    try:
        with connect(port) as client:
            for number, piece in enumerate(pieces):
                time.sleep(BETWEEN if number else 0)
                client.sendall(piece.encode())
            return rest_of(client)
    except OSError as error:
        raise Wrong(f"{pieces[0].splitlines()[0]}: no whole reply came: {error}") from error
