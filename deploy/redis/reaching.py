"""How the scripts reach their server, and what its faults mean to them."""

import contextlib
import os
import socket
import sys

import redis

sys.path.append(os.path.dirname(os.path.dirname(os.path.abspath(__file__))))
from running import Away, Fault

URL = os.environ.get("RECALL_REDIS", "redis://127.0.0.1:6379")
LOAD = "redis-cli -x FUNCTION LOAD REPLACE < deploy/redis/recall.lua"
NO_FUNCTIONS = f"the server has no functions of recall, or others: {LOAD}"
CONNECT = 5  # (seconds in which a server must take a connection)
# A server whose machine is gone says nothing: after 30 seconds without an answer from its system the connection is
# lost.
SILENT = {socket.TCP_KEEPIDLE: 10, socket.TCP_KEEPINTVL: 5, socket.TCP_KEEPCNT: 4, socket.TCP_USER_TIMEOUT: 30_000}


def connect(url, seconds=None):
    """The server at this address, of which nothing is asked yet; with `seconds`, one that is silent so long is lost."""
    words = {"socket_timeout": seconds}
    if not url.startswith("unix:"):
        words |= {"socket_connect_timeout": CONNECT, "socket_keepalive": True, "socket_keepalive_options": SILENT}
    try:
        return redis.Redis.from_url(url, **words)
    except ValueError as fault:
        raise Fault(2, f"bad address of a server: {fault}")


@contextlib.contextmanager
def told():
    """Makes a server's fault one that ends the script."""
    try:
        yield
    except redis.RedisError as fault:
        raise of_server(fault) from fault


def of_server(fault):
    """What a server's fault means to a script."""
    why = str(fault) or type(fault).__name__
    if isinstance(fault, redis.AuthenticationError) or why.startswith(("WRONGPASS", "NOPERM")):
        return Fault(4, f"the server refuses this user or its password: {why}")
    if isinstance(fault, (redis.ConnectionError, redis.TimeoutError)):
        return Away(f"the server can't be reached: {why}")
    if isinstance(fault, redis.ReadOnlyError):
        return Away("the server is a replica and takes no writes: name the primary, or promote it (REPLICAOF NO ONE)")
    if "unction not found" in why:
        return Fault(1, NO_FUNCTIONS)
    return Fault(3 if why.startswith("FENCED") else 1, f"refused: {why}")
