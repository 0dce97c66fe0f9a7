"""A server of examples/block for a test: it is started, and has to end with status 0."""
import contextlib
import os
import signal
import subprocess
import sys
from pathlib import Path

ROOT = Path(__file__).resolve().parents[2]


class Server:
    """The program, with the port that it printed."""

    def __init__(self, program, *words):
        self.process = subprocess.Popen(
            [sys.executable, "-B", str(ROOT / "examples" / "block" / program), *words], stdin=subprocess.PIPE,
            stdout=subprocess.PIPE, encoding="utf-8", env={**os.environ, "PYTHONPATH": str(ROOT / "python")})
        self.port = int(self.line().split("/")[2].split(":")[1])

    def line(self):
        """The next line that it prints."""
        return self.process.stdout.readline()

    def say(self, line):
        """Gives it a line."""
        self.process.stdin.write(f"{line}\n")
        self.process.stdin.flush()

    def end(self):
        """Ends it as a service manager does, and gives what it still prints."""
        if self.process.returncode is not None:
            return ""
        self.process.send_signal(signal.SIGTERM)
        told, _ = self.process.communicate(timeout=60)
        assert self.process.returncode == 0
        return told


@contextlib.contextmanager
def servers(program, *words):
    """Gives what starts the program, with more words, and ends at last what was started."""
    with contextlib.ExitStack() as ends:
        def start(*more):
            server = Server(program, *words, *more)
            ends.callback(server.end)
            return server

        yield start
