"""Clients that ask a group, or etcd, for one write after the other: each has a connection of its
own. They run in a process of their own, so that they don't take time of what answers."""
import asyncio
import base64
import json
import sys
import time

from links import CLIENT, Keyed, spelled

DRAIN = b"drain 1 slow"  # node 1 is drained already: a command is committed, and nothing moves


class Writer:
    """One who writes. `times` gets how long each write took that was answered well."""

    def __init__(self, times):
        self.times, self.count, self.faults, self.began = times, 0, [], 0
        self.lost = asyncio.get_running_loop().create_future()
        self.closing = False

    def next(self):
        self.began = time.perf_counter()
        self.ask()

    def answered(self, is_well, words):
        """One is answered, and the next is asked for."""
        if is_well:
            self.times.append(time.perf_counter() - self.began)
        else:
            self.faults.append(words)
        if self.closing or len(self.faults) > 100:
            self.close()
        else:
            self.next()

    def end(self):
        if not self.lost.done():
            self.lost.set_result(True)


class GroupWriter(Writer):
    """Asks a server of a group, by `L`, and waits for `committed`."""

    def __init__(self, times, place):
        super().__init__(times)
        self.place, self.keyed = place, None
        with open(place["key"], "rb") as file:
            self.key = file.read()

    async def connect(self):
        place = self.place
        _, self.keyed = await asyncio.get_running_loop().create_connection(
            lambda: Keyed(self.key, CLIENT, place["server"], self.take, True), *place["address"])
        if not await asyncio.wait_for(asyncio.shield(self.keyed.ready), 10):
            raise ConnectionError("no server of this key")
        self.line = b"request %d " % place["server"] + DRAIN
        self.keyed.lost.add_done_callback(lambda _: self.end())

    def ask(self):
        self.count += 1
        self.keyed.put([b"L" + spelled(self.count) + self.line])

    def take(self, keyed, text):
        if text[:8] != spelled(self.count) or text[8:14] == b"ticket":
            return
        self.answered(text[8:17] == b"committed", bytes(text[8:]).decode("ascii", "replace"))

    def close(self):
        if self.keyed:
            self.keyed.transport.abort()


def request_of(path, body):
    text = json.dumps(body).encode()
    return (f"POST {path} HTTP/1.1\r\nHost: etcd\r\nContent-Type: application/json\r\n"
            f"Content-Length: {len(text)}\r\n\r\n").encode() + text


def put_of(key, value):
    words = (base64.b64encode(it.encode()).decode() for it in (key, value))
    return request_of("/v3/kv/put", dict(zip(("key", "value"), words)))


def answer_in(text):
    """The status and the body of an answer by HTTP that stands whole at the front, and its end."""
    head, mark, _ = text.partition(b"\r\n\r\n")
    if not mark:
        return None
    start = len(head) + 4
    lines = head.decode("latin-1").split("\r\n")
    heads = {name.strip().lower(): value.strip()
             for name, _, value in (line.partition(":") for line in lines[1:])}
    status = int(lines[0].split()[1])
    if heads.get("transfer-encoding") != "chunked":
        end = start + int(heads.get("content-length", "0"))
        return (status, text[start:end], end) if len(text) >= end else None
    body, at = b"", start
    while True:
        end = text.find(b"\r\n", at)
        if end < 0:
            return None
        size = int(text[at:end], 16)
        if len(text) < end + 4 + size:
            return None
        body, at = body + text[end + 2:end + 2 + size], end + 4 + size
        if size == 0:
            return status, body, at


class EtcdWriter(Writer, asyncio.Protocol):
    """Asks a member of etcd, by its JSON gateway, to put a key, over one connection."""

    def __init__(self, times, place):
        super().__init__(times)
        self.place, self.text, self.transport = place, b"", None
        self.request = put_of(place["name"], "0123456789")

    async def connect(self):
        await asyncio.get_running_loop().create_connection(lambda: self, *self.place["address"])

    def connection_made(self, transport):
        self.transport = transport

    def ask(self):
        self.transport.write(self.request)

    def data_received(self, data):
        self.text += data
        found = answer_in(self.text)
        if found:
            status, body, end = found
            self.text = self.text[end:]
            self.answered(status == 200, body.decode("utf-8", "replace"))

    def connection_lost(self, error):
        self.end()

    def close(self):
        if self.transport:
            self.transport.abort()


KINDS = {"group": GroupWriter, "etcd": EtcdWriter}


async def ask_for(spec):
    """Asks for so many seconds, after one in which nothing counts."""
    times = []
    writers = [KINDS[spec["kind"]](times, {**spec, "name": f"{spec['first'] + it}"})
               for it in range(spec["clients"])]
    for it in writers:
        await it.connect()
    for it in writers:
        it.next()
    await asyncio.sleep(1)
    times.clear()
    began, used = time.perf_counter(), time.process_time()
    await asyncio.sleep(spec["seconds"])
    took, used, done = time.perf_counter() - began, time.process_time() - used, list(times)
    for it in writers:
        it.closing = True
    await asyncio.wait([it.lost for it in writers], timeout=5)
    faults = [words for it in writers for words in it.faults]
    return {"times": done, "took": took, "used": used / took, "faults": faults[:5],
            "lost": sum(it.lost.done() and not it.closing for it in writers)}


def main():
    """Reads what is to be asked as JSON, and prints what came of it."""
    print(json.dumps(asyncio.run(ask_for(json.loads(sys.stdin.read())))))


if __name__ == "__main__":
    main()
