"""A client of NATS JetStream over its text protocol, as much as the recipe needs. Python has no other one in Debian's
packages.

A connection is one thread's, and is never made anew by itself: who loses one is told (`Away`), and begins with what the
server has then. It speaks no TLS. https://docs.nats.io/reference/reference-protocols has the protocol and the API.
"""

import base64
import contextlib
import datetime
import json
import os
import re
import secrets
import socket
import sys
import time
from urllib.parse import unquote, urlsplit

sys.path.append(os.path.dirname(os.path.dirname(os.path.abspath(__file__))))
from running import Away, Fault

URL = os.environ.get("RECALL_NATS", "nats://127.0.0.1:4222")
CONNECT, ANSWER = 5, 30  # (seconds in which a server must take a connection, and answer)
# A server whose machine is gone says nothing: 30 seconds without an answer from its system, and the connection is lost.
SILENT = {socket.TCP_KEEPIDLE: 10, socket.TCP_KEEPINTVL: 5, socket.TCP_KEEPCNT: 4, socket.TCP_USER_TIMEOUT: 30_000}
AT_ONCE, LARGEST = 100, 32 << 20  # (messages that are read at once, and their bytes: enough for one of the longest)
SECOND = 10**9  # (nanoseconds)
EXPIRES, IDLE = 5 * SECOND, 60 * SECOND  # (until a question for messages is over, and a reader is forgotten)
LATE = 0.5  # (seconds by which the end of a question may be late)
NOT_YET, NO_MESSAGE, GONE = 10008, 10037, 10057  # (numbers of JetStream's refusals)
NO_JETSTREAM = "the server has no JetStream here, or not yet: deploy/nats/start begins one that has it"


class Refused(Exception):
    """What JetStream refuses: its number, and why."""


@contextlib.contextmanager
def told():
    """Makes a refusal that nobody waited for one that ends the script."""
    try:
        yield
    except Refused as refused:
        raise Fault(1, f"refused: {refused.args[1]}") from refused


def name(text):
    """The name of a set of partitions, which is part of names of streams."""
    if not re.fullmatch("[A-Za-z0-9_-]{1,64}", text):
        raise Fault(2, f"the name {text} can't be a stream's: it is of letters, digits, _ and -")
    return text


class Message:
    """A message: its headers, its status where it is none but tells of one, and its bytes."""

    def __init__(self, reply, head, payload):
        self.reply, self.payload, self.headers, self.status, self.time = reply, payload, {}, None, None
        if head:
            first, *lines = head.split("\r\n")
            self.status = int(first.split()[1]) if len(first.split()) > 1 else None
            self.headers = dict(line.split(": ", 1) for line in lines if ": " in line)

    def sequence(self):
        """Its number in its stream, where a consumer gave it."""
        return int(self.reply.split(".")[5])


class Connection:
    """A connection to a server."""

    def __init__(self, url):
        self.url, self.rest, self.count, self.answers, self.pulled = url, bytearray(), 0, {}, {}
        where = urlsplit(url if "//" in url else f"nats://{url}")
        self.inbox = f"_INBOX.{secrets.token_hex(11)}"
        try:
            if where.scheme != "nats" or not where.hostname:
                raise ValueError("it is nats://[USER:PASSWORD@]HOST[:PORT]")
            self.socket = self.open(where.hostname, where.port or 4222)
        except ValueError as fault:
            raise Fault(2, f"bad address of a server: {fault}")
        except OSError as fault:
            raise Away(f"the server can't be reached: {fault}")
        self.greet(where)

    def open(self, host, port):
        link = socket.create_connection((host, port), CONNECT)
        link.setsockopt(socket.SOL_SOCKET, socket.SO_KEEPALIVE, 1)
        for option, value in {**SILENT, socket.TCP_NODELAY: 1}.items():
            link.setsockopt(socket.IPPROTO_TCP, option, value)
        return link

    def greet(self, where):
        """Takes the server's greeting, and tells who this is."""
        until = time.monotonic() + CONNECT
        try:
            info = json.loads(self.line(until).removeprefix(b"INFO "))
        except (TimeoutError, ValueError):
            raise self.lost("nobody greets there as NATS does")
        if info.get("tls_required"):
            raise Fault(2, "the server wants TLS, which this client doesn't speak")
        self.info, self.most = info, info["max_payload"]
        self.host = f"{where.hostname}:{where.port or 4222}"
        words = {"verbose": False, "headers": True, "no_responders": True, "lang": "recall", "version": "1"}
        if where.username and where.password is None:
            words["auth_token"] = unquote(where.username)
        elif where.username:
            words |= {"user": unquote(where.username), "pass": unquote(where.password)}
        self.write(f"CONNECT {json.dumps(words)}\r\nSUB {self.inbox}.a.* 1\r\nPING\r\n".encode())
        try:
            while self.take(until) != b"PONG":
                pass
        except TimeoutError:
            raise self.lost(f"it hasn't answered in {CONNECT} s")

    def close(self):
        self.socket.close()

    # Bytes.

    def lost(self, why):
        return Away(f"the server can't be reached: {why or 'it ended the connection'}")

    def write(self, *pieces):
        self.socket.settimeout(None)  # (a long reply may take long; a server that is gone is found out by SILENT)
        try:
            self.socket.sendall(b"".join(pieces))
        except OSError as fault:
            raise self.lost(fault.strerror)

    def more(self, until):
        """Waits for more bytes; `TimeoutError` where none come."""
        self.socket.settimeout(max(until - time.monotonic(), 0.001))
        try:
            piece = self.socket.recv(1 << 18)
        except TimeoutError:
            raise
        except OSError as fault:
            raise self.lost(fault.strerror)
        if not piece:
            raise self.lost(None)
        self.rest += piece

    def line(self, until):
        while (end := self.rest.find(b"\r\n")) < 0:
            self.more(until)
        line = bytes(self.rest[:end])
        del self.rest[: end + 2]
        return line

    def take(self, until):
        """Takes what the server says next: a message is put where it is waited for. Gives the line's first word."""
        line = self.line(until)
        word, _, words = line.partition(b" ")
        if word in (b"MSG", b"HMSG"):
            self.take_message(word, words.decode().split())
        elif word == b"PING":
            self.write(b"PONG\r\n")
        elif word == b"-ERR" and b"Authorization" in words:
            raise Fault(4, f"the server refuses this user or its password: {words.decode()}")
        elif word == b"-ERR":
            raise self.lost(words.decode())
        return word

    def take_message(self, word, words):
        subject, kind, size = words[0], words[1], int(words[-1])
        head = int(words[-2]) if word == b"HMSG" else 0
        reply = words[2] if len(words) == (5 if head else 4) else ""
        until = time.monotonic() + ANSWER
        while len(self.rest) < size + 2:
            try:
                self.more(until)
            except TimeoutError:
                raise self.lost("it stopped in the midst of a message")
            until = time.monotonic() + ANSWER
        text = bytes(self.rest[:size])
        del self.rest[: size + 2]
        message = Message(reply, text[:head].decode(errors="replace"), text[head:])
        if kind == "1":
            self.answers[subject.rpartition(".")[2]] = message
        else:
            self.pulled[kind].append(message)

    # Questions.

    def ask(self, subject, payload=b"", **headers):
        """Sends a message that is to be answered; gives the token of its answer."""
        self.count += 1
        reply = f"{self.inbox}.a.{self.count}"
        payload = payload if isinstance(payload, bytes) else json.dumps(payload).encode()
        head = "".join(f"{name.replace('_', '-')}: {value}\r\n" for name, value in headers.items())
        if head:
            head = f"NATS/1.0\r\n{head}\r\n".encode()
            first = f"HPUB {subject} {reply} {len(head)} {len(head) + len(payload)}\r\n".encode()
        else:
            head, first = b"", f"PUB {subject} {reply} {len(payload)}\r\n".encode()
        self.write(first, head, payload, b"\r\n")
        return str(self.count)

    def answer(self, token):
        """Waits for an answer of JetStream: `Refused` where it is a refusal."""
        until = time.monotonic() + ANSWER
        while token not in self.answers:
            try:
                self.take(until)
            except TimeoutError:
                raise self.lost(f"it hasn't answered in {ANSWER} s")
        message = self.answers.pop(token)
        said = json.loads(message.payload or b"{}")
        error = said.get("error")
        if message.status == 503 or error and error.get("err_code") == NOT_YET:
            raise Away(NO_JETSTREAM)
        if error:
            raise Refused(error.get("err_code", 0), error.get("description", ""))
        return said

    def call(self, subject, payload=b"", **headers):
        return self.answer(self.ask(subject, payload, **headers))

    def api(self, what, **words):
        return self.call(f"$JS.API.{what}", words)

    def meanwhile(self):
        """Takes what has come, such as the server's question whether anybody is there."""
        try:
            while True:
                self.take(time.monotonic())
        except TimeoutError:
            pass  # (nothing more has come)

    # Streams.

    def stream(self, name, **words):
        """Makes a stream, unless it is there."""
        try:
            self.api(f"STREAM.CREATE.{name}", name=name, storage="file", **words)
        except Refused as refused:
            raise Fault(1, f"the stream {name} can't be made: {refused.args[1]}")

    def last(self, stream, subject):
        """The last message of a subject, or nothing: its number and itself."""
        return self.get(stream, last_by_subj=subject)

    def get(self, stream, **which):
        """A message of a stream, or nothing: its number and itself, with its time."""
        try:
            found = self.api(f"STREAM.MSG.GET.{stream}", **which)["message"]
        except Refused as refused:
            if refused.args[0] == NO_MESSAGE:
                return None
            raise
        text = lambda word: base64.b64decode(found.get(word, ""))
        message = Message("", text("hdrs").decode(), text("data"))
        message.time = datetime.datetime.fromisoformat(found["time"]).timestamp()
        return found["seq"], message

    def wait(self, pulls, until):
        """Waits until something has come for one of these pulls."""
        try:
            while not any(self.pulled[pull.kind] for pull in pulls):
                self.take(until)
        except TimeoutError:
            pass  # (nothing has come)


class Pull:
    """Reads a stream from a message on, by a consumer of its own: so many at once, and so many bytes."""

    def __init__(self, connection, stream, first):
        self.connection, self.stream, self.next, self.kind = connection, stream, first, str(len(connection.pulled) + 2)
        connection.pulled[self.kind] = []
        connection.write(f"SUB {self.inbox()} {self.kind}\r\n".encode())
        self.begin()

    def begin(self):
        """Has the server make a consumer that begins with the next message. It is forgotten where it isn't used."""
        words = {"deliver_policy": "by_start_sequence", "opt_start_seq": self.next, "ack_policy": "none"}
        words["inactive_threshold"] = IDLE
        made = self.connection.api(f"CONSUMER.CREATE.{self.stream}", stream_name=self.stream, config=words)
        self.consumer, self.asked = made["name"], 0

    def inbox(self):
        return f"{self.connection.inbox}.p{self.kind}"

    def ask(self):
        """Asks for more, unless that was done and may still be answered: the end of a question isn't always told."""
        if self.asked <= 0 or time.monotonic() > self.over:
            self.asked, self.over = AT_ONCE, time.monotonic() + EXPIRES / SECOND + LATE
            words = json.dumps({"batch": AT_ONCE, "max_bytes": LARGEST, "expires": EXPIRES}).encode()
            subject = f"$JS.API.CONSUMER.MSG.NEXT.{self.stream}.{self.consumer}"
            self.connection.write(f"PUB {subject} {self.inbox()} {len(words)}\r\n".encode(), words, b"\r\n")

    def taken(self):
        """Those that have come."""
        come, found = self.connection.pulled[self.kind], []
        while come:
            message = come.pop(0)
            if message.status is None:
                self.asked -= 1
                self.take(message, found)
            elif message.status == 503:
                self.begin()
            elif message.status != 100:
                self.asked = 0  # (no more come for this question)
        return found

    def take(self, message, found):
        """Adds the next message. Nothing is ever taken out of these streams, so where another one comes, the consumer
        is at fault: another is made."""
        is_own = message.reply.split(".")[3] == self.consumer
        if is_own and message.sequence() == self.next:
            self.next += 1
            found.append(message)
        elif is_own and message.sequence() > self.next:
            self.begin()

    def read(self, seconds):
        """Those that come next, waiting so long for one."""
        until = time.monotonic() + seconds
        while not (found := self.taken()) and time.monotonic() < until:
            self.ask()
            self.connection.wait([self], until)
        return found
