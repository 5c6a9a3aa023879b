"""What both drivers stand on: items, processes, connections, and a net that loses frames."""
import asyncio
import collections
import hmac
import os
import random
import secrets
import socket
import sys

VERSION, MOST_BYTES, CODE_BYTES, NONCE_BYTES, MOST_HELLO = 3, 16_777_216, 16, 16, 65_536
VOTE_REQUEST, VOTE_REPLY, APPEND, APPEND_REPLY, INSTALL, INSTALL_REPLY = range(1, 7)
WORD = (1 << 64) - 1
MOST_PENDING = 4 * MOST_BYTES  # bytes that wait for a process or a connection
CLIENT = 0  # the number of whoever asks, and is no part of the group
ROOT = os.path.dirname(os.path.dirname(os.path.realpath(__file__)))


# ---- bytes

def item(body):
    return len(body).to_bytes(4, "big") + body


def number(text, at):
    return int.from_bytes(text[at:at + 8], "big")


def spelled(value):
    return value.to_bytes(8, "big")


class Items:
    """The items of a stream, of which parts come."""

    def __init__(self):
        self.pending = b""

    def of(self, more):
        """The items that are whole by now. One that is too long is an error of value."""
        text, at, found = self.pending + more, 0, []
        while len(text) - at >= 4:
            size = int.from_bytes(text[at:at + 4], "big")
            if size > MOST_BYTES + CODE_BYTES:
                raise ValueError(f"an item of {size} bytes")
            if len(text) - at - 4 < size:
                break
            found.append(text[at + 4:at + 4 + size])
            at += 4 + size
        self.pending = text[at:]
        return found


# ---- one process

class Process(asyncio.SubprocessProtocol):
    """A process: items go in, items and lines come out."""

    def __init__(self, name, sent, stray):
        self.name, self.sent, self.stray = name, sent, stray
        self.frames, self.line = Items(), b""
        self.open_pipes, self.last_words = 2, ""
        self.ended = asyncio.get_running_loop().create_future()

    @classmethod
    async def start(cls, words, *rest, **how):
        loop = asyncio.get_running_loop()
        _, process = await loop.subprocess_exec(
            lambda: cls(*rest), *words, start_new_session=True, **how)
        return process

    def connection_made(self, transport):
        self.transport, self.input = transport, transport.get_pipe_transport(0)

    def give(self, items):
        if not self.ended.done() and not self.input.is_closing():
            self.input.write(items)

    def is_full(self):
        return self.input.get_write_buffer_size() > MOST_PENDING

    def kill(self):
        try:
            self.transport.kill()
        except ProcessLookupError:
            pass

    def close(self):
        self.input.close()

    def pipe_data_received(self, fd, data):
        if fd == 1:
            self.take_frames(data)
            return
        lines = (self.line + data).split(b"\n")
        self.line = lines.pop()
        for line in lines:
            self.take_line(line.decode("ascii", "replace"))

    def take_frames(self, data):
        try:
            for frame in self.frames.of(data):
                self.sent(frame)
        except ValueError as error:
            self.stray(str(error))
            self.kill()

    def take_line(self, line):
        self.last_words = line
        self.stray(line)

    def pipe_connection_lost(self, fd, error):
        if fd != 0:
            self.open_pipes -= 1
            self.check_end()

    def process_exited(self):
        self.check_end()

    def check_end(self):
        """It has ended once all that it wrote is read."""
        status = self.transport.get_returncode()
        if self.open_pipes or status is None or self.ended.done():
            return
        self.ended.set_result(status)
        if not self.input.is_closing():
            self.input.abort()
        self.forget()

    def forget(self):
        """What is to be done where it has ended."""


# ---- links

class Keyed(asyncio.Protocol):
    """One end of a connection. The first item of each end is a nonce, that of the caller behind
    who calls and who is called. What follows is a code and a body: the code is of the key, both
    numbers, both nonces, the direction and how many came before."""

    def __init__(self, key, me, peer, take, is_caller):
        self.key, self.me, self.peer, self.take, self.is_caller = key, me, peer, take, is_caller
        self.items, self.nonce = Items(), secrets.token_bytes(NONCE_BYTES)
        self.session, self.count_in, self.count_out, self.transport = None, 0, 0, None
        self.ready = asyncio.get_running_loop().create_future()
        self.lost = asyncio.get_running_loop().create_future()

    def connection_made(self, transport):
        self.transport = transport
        give_up_early(transport.get_extra_info("socket"))
        if self.is_caller:
            transport.write(item(bytes([VERSION, self.me, self.peer]) + self.nonce))

    def begin(self, hello):
        """Takes the other end's first item."""
        if self.is_caller:
            caller, called, nonces = self.me, self.peer, self.nonce + hello
        else:
            if hello[0] != VERSION or hello[2] != self.me or hello[1] == self.me:
                raise ValueError("a call for another")
            self.peer = hello[1]
            caller, called, nonces = self.peer, self.me, hello[3:] + self.nonce
            self.transport.write(item(self.nonce))
        if len(nonces) != 2 * NONCE_BYTES:
            raise ValueError("no nonce")
        self.session = hmac.digest(self.key, bytes([caller, called]) + nonces, "sha256")
        self.ready.set_result(True)

    def code(self, is_caller, count, body):
        return hmac.digest(self.session, bytes([is_caller]) + spelled(count) + body,
                           "sha256")[:CODE_BYTES]

    def data_received(self, data):
        try:
            if self.session is None and len(data) > MOST_HELLO:
                raise ValueError("too much for a call")
            for text in self.items.of(data):
                self.take_item(text)
        except (ValueError, IndexError):
            self.transport.abort()

    def take_item(self, text):
        if self.session is None:
            self.begin(text)
            return
        code, body = text[:CODE_BYTES], text[CODE_BYTES:]
        if not hmac.compare_digest(code, self.code(not self.is_caller, self.count_in, body)):
            raise ValueError("a code is wrong")
        self.count_in += 1
        self.take(self, body)

    def put(self, bodies):
        texts = []
        for body in bodies:
            texts.append(item(self.code(self.is_caller, self.count_out, body) + body))
            self.count_out += 1
        self.transport.write(b"".join(texts))

    def is_full(self):
        return self.transport.get_write_buffer_size() > MOST_PENDING

    def connection_lost(self, error):
        if not self.lost.done():
            self.lost.set_result(True)
        if not self.ready.done():
            self.ready.set_result(False)


def give_up_early(connection):
    """A connection whose other end is silent for some seconds is lost."""
    connection.setsockopt(socket.SOL_SOCKET, socket.SO_KEEPALIVE, 1)
    for name, value in (("TCP_KEEPIDLE", 5), ("TCP_KEEPINTVL", 2), ("TCP_KEEPCNT", 3),
                        ("TCP_USER_TIMEOUT", 10_000)):
        if hasattr(socket, name):
            connection.setsockopt(socket.IPPROTO_TCP, getattr(socket, name), value)


class Way:
    """What goes over a connection, all of a moment in one write. A frame that cannot go is lost."""

    def __init__(self, keyed=None):
        self.keyed, self.frames, self.due = keyed, [], False

    def put(self, frame):
        if self.keyed is None or self.keyed.is_full():
            return
        self.frames.append(frame)
        if not self.due:
            self.due = True
            asyncio.get_running_loop().call_soon(self.flush)

    def flush(self):
        frames, self.frames, self.due = self.frames, [], False
        if self.keyed is not None and not self.keyed.transport.is_closing():
            self.keyed.put(frames)


class Link(Way):
    """A way from one to another, which calls again whenever the connection is lost. What comes
    back, if anything may, is taken by `take`."""

    def __init__(self, key, me, to, address, take=lambda *_: None):
        super().__init__()
        self.key, self.me, self.to, self.address, self.take = key, me, to, address, take
        self.task = asyncio.get_running_loop().create_task(self.call())

    async def call(self):
        loop = asyncio.get_running_loop()
        while True:
            try:
                transport, keyed = await asyncio.wait_for(loop.create_connection(
                    lambda: Keyed(self.key, self.me, self.to, self.take, True),
                    *self.address), 5)
                if await asyncio.wait_for(asyncio.shield(keyed.ready), 5):
                    self.keyed = keyed
                    await keyed.lost
                transport.abort()
            except (OSError, asyncio.TimeoutError):
                pass
            self.keyed = None
            await asyncio.sleep(0.2)


class Net:
    """What becomes of a frame between two, by lot: `options` has the shares of frames that are lost
    and repeated, the longest delay, and the seed."""

    def __init__(self, options, count):
        self.options, self.count, self.cut, self.is_calm = options, count, set(), False
        self.lots = collections.defaultdict(dict)

    def lot(self, a, b):
        lots = self.lots[a]
        if b not in lots:
            lots[b] = random.Random(f"{self.options.seed} link {a} {b}")
        return lots[b]

    def fate(self, a, b):
        """After how many seconds each copy of it goes on its way."""
        if (a, b) in self.cut and not self.is_calm:
            self.count["frames lost"] += 1
            return ()
        lot, options = self.lot(a, b), self.options
        if self.is_calm or not (options.loss or options.repeat or options.delay):
            return (0,)
        if lot.random() < options.loss:
            self.count["frames lost"] += 1
            return ()
        copies = 1
        if lot.random() < options.repeat:
            self.count["frames repeated"] += 1
            copies = 2
        return [lot.uniform(0, options.delay) for _ in range(copies)]


# ---- files

def addresses_of(path):
    """Lines `NUMBER HOST PORT`, of three or five servers."""
    with open(path, encoding="ascii") as file:
        rows = [line.split() for line in file if line.strip() and not line.startswith("#")]
    found = {int(row[0]): (row[1], int(row[2])) for row in rows}
    if sorted(found) not in ([1, 2, 3], [1, 2, 3, 4, 5]):
        sys.exit(f"{path}: the servers are to be 1 to 3, or 1 to 5")
    return found


def key_of(path):
    with open(path, "rb") as file:
        key = file.read()
    if len(key) < 32:
        sys.exit(f"{path}: a key has at least 32 bytes")
    return key
