"""A server of their own for the try, its attacks and the bench."""

import contextlib
import os
import signal
import subprocess
import tempfile

import redis

import reaching  # (this finds the modules of the folder above)
from trials import Wrong, free_port, until

HERE = os.path.dirname(os.path.abspath(__file__))


class Server:
    """A server on a free port of the loopback, in a folder of its own."""

    def __init__(self, room, scripts=HERE):
        self.room, self.scripts = room, scripts
        self.port = free_port()
        self.url = f"redis://127.0.0.1:{self.port}"
        self.client = reaching.connect(self.url)
        self.process = None

    def start(self, *more):
        words = [self.room, "--port", self.port, "--bind", "127.0.0.1", "--save", "", "--logfile", "server.log", *more]
        with open(os.path.join(self.room, "start.log"), "a") as log:
            self.process = subprocess.Popen(
                [os.path.join(self.scripts, "start"), *map(str, words)], stdout=log, stderr=log
            )
        until("the server's start", self.answers)

    def answers(self):
        try:
            return self.client.ping()
        except (redis.ConnectionError, redis.BusyLoadingError):
            return False

    def kill(self):
        self.process.kill()
        if self.process.wait() != -signal.SIGKILL:
            raise Wrong("the server had ended by itself")

    def end(self):
        """Ends it, if it runs."""
        if self.process:
            self.process.kill()
            self.process.wait()

    def load(self):
        """Gives it the functions."""
        with open(os.path.join(self.scripts, "recall.lua")) as functions:
            self.client.function_load(functions.read(), replace=True)

    def open_to_others(self):
        """The server's own files, which have every text, that others than their owner may read or write."""
        folder = os.path.join(self.room, "appendonlydir")
        files = [
            folder,
            os.path.join(self.room, "server.log"),
            *(os.path.join(folder, name) for name in os.listdir(folder)),
        ]
        return [os.path.relpath(file, self.room) for file in files if os.stat(file).st_mode & 0o077]

    def file(self):
        """The append-only file that is written now."""
        folder = os.path.join(self.room, "appendonlydir")
        return os.path.join(folder, max(name for name in os.listdir(folder) if name.endswith(".incr.aof")))


@contextlib.contextmanager
def serving(room, scripts=HERE):
    """A server with the functions and nothing else, in a folder of its own that is made in this one."""
    server = Server(tempfile.mkdtemp(prefix="server-", dir=room), scripts)
    try:
        server.start()
        server.load()
        yield server
    finally:
        server.end()
