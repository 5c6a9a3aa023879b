"""What a group does a second, how long it is without a leader, and what memory its servers take."""
import asyncio
import collections
import os
import random
import time

WAITS = {"least_wait": 1000, "more_wait": 1000, "beat": 100}  # the standard settings of servers
PARTS = (("least", 0), ("10%", 0.1), ("25%", 0.25), ("50%", 0.5), ("75%", 0.75), ("90%", 0.9),
         ("99%", 0.99), ("most", 1))
MOST_COUNT, MOST_JOBS = 64, 256  # allocations of a group, jobs of a state


def part_of(times, part):
    """Of sorted times the one that so large a part of them does not pass."""
    return times[min(len(times) - 1, int(len(times) * part))] if times else float("nan")


def middle(times):
    return part_of(sorted(times), 0.5)


def waits_of(settings):
    """The waits that settings of servers name, or the standard ones."""
    given = dict(word.split("=") for word in settings)
    return {name: int(given.get(name, standard)) for name, standard in WAITS.items()}


def in_bins(times, width):
    """How many of these milliseconds there are from each multiple of a width on."""
    count = collections.Counter(int(it // width) for it in times)
    return [(width * place, count[place]) for place in range(max(count) + 1)] if count else []


def memory_of(pid):
    """The most memory that a process had, and what it has, in MB."""
    with open(f"/proc/{pid}/status", encoding="ascii") as file:
        rows = dict(line.split(":", 1) for line in file)
    return [int(rows[name].split()[0]) / 1024 for name in ("VmHWM", "VmRSS")]


def jobs_of(count):
    """Requests for so many allocations: of each job the groups, by names and counts. There are at
    most as many jobs as a state has."""
    groups = [min(MOST_COUNT, count - at) for at in range(0, count, MOST_COUNT)]
    each = -(-len(groups) // MOST_JOBS)
    return [[(f"g{place}", size) for place, size in enumerate(groups[at:at + each])]
            for at in range(0, len(groups), each)]


class Measures:
    """Measures a group that is up, whose clients have room."""

    def __init__(self, group, options):
        self.group, self.options, self.closing = group, options, False
        self.waiting = []  # what is waited for, with who is to be told
        group.book.watchers.append(self.look)

    def look(self, index, command):
        """A command was applied: what is waited for may hold."""
        left = []
        for holds, told in self.waiting:
            if told.done() or holds():
                told.done() or told.set_result(True)
            else:
                left.append((holds, told))
        self.waiting = left

    async def until(self, holds, seconds=30):
        """Waits till it holds, as commands are applied. Whether it came to."""
        if holds():
            return True
        told = asyncio.get_running_loop().create_future()
        self.waiting.append((holds, told))
        try:
            return await asyncio.wait_for(told, seconds)
        except asyncio.TimeoutError:
            return False

    async def watch(self):
        """Asks the leader how it stands, so that what it applied is seen before its next frame."""
        while True:
            leader = self.group.leader()
            if leader:
                await leader.stands()
            await asyncio.sleep(0.01)

    async def is_ready(self):
        """There is a leader, and each node is registered."""
        state = None
        for _ in range(300):
            state = await self.group.state()
            if self.group.leader() and state and len(state.nodes.rows) == len(self.group.clients):
                return True
            await asyncio.sleep(0.1)
        return False

    # -- proposals

    async def propose(self, place, times):
        """One who asks, with one request on its way: node 1 is to be drained, which it is already.
        So no evaluation comes of it."""
        while not self.closing:
            began = time.perf_counter()
            answer = await self.group.request(["drain", "1", "slow"])
            if answer.startswith("committed"):
                times.append(time.perf_counter() - began)

    async def put_and_stop(self, place, times):
        """One who puts a job of one allocation, waits till it is placed, and stops it."""
        name = f"m-{place}"
        live = self.group.book.cluster.live[name, "main", 0]
        while not self.closing:
            began = time.perf_counter()
            await self.group.request(["put", name, "50", "main:1:linux:1:1:0"])
            if await self.until(lambda: live):
                times.append(time.perf_counter() - began)
            await self.group.request(["stop", name])
            await self.until(lambda: not live)

    async def rate(self, what, askers, seconds):
        """How many a second, the time in the middle, and how much of a processor this takes."""
        times, self.closing = [], False
        tasks = [asyncio.get_running_loop().create_task(what(place, times))
                 for place in range(askers)]
        await asyncio.sleep(1)
        times.clear()
        began, used = time.perf_counter(), time.process_time()
        await asyncio.sleep(seconds)
        took, used, done = time.perf_counter() - began, time.process_time() - used, list(times)
        self.closing = True
        await asyncio.wait(tasks, timeout=30)
        for task in tasks:
            task.cancel()
        return len(done) / took, 1000 * middle(done), used / took

    async def rates(self):
        print("who ask    proposals/s   median ms   placed/s   median ms   driver's cpu",
              flush=True)
        for askers in (1, 10, 100):
            placed = await self.rate(self.put_and_stop, askers, self.options.measure)
            proposed = await self.rate(self.propose, askers, self.options.measure)
            print(f"{askers:7} {proposed[0]:14.0f} {proposed[1]:11.2f} {placed[0]:10.1f}"
                  f" {placed[1]:11.1f} {proposed[2]:8.2f} {placed[2]:.2f}", flush=True)

    # -- failover

    async def failover(self, serial):
        """Milliseconds from a SIGKILL of the leader till the next one is heard, and till the next
        allocation is placed."""
        group, book = self.group, self.group.book
        while not group.leader():
            await asyncio.sleep(0.05)
        leader, placed, term = group.leader(), book.placed, max(book.when_led)
        name = f"f-{serial % 100}"
        began = time.monotonic()
        group.count["kills of servers"] += 1
        group.meant.add(leader.process)
        leader.process.kill()
        asking = asyncio.get_running_loop().create_task(self.put_till_taken(name))
        came = await self.until(lambda: book.placed > placed)
        took = 1000 * (time.monotonic() - began)
        await asking
        await leader.process.ended
        await group.start(leader)
        await group.request(["stop", name])
        await asyncio.sleep(0.5 + random.random())
        led = [when for of, when in book.when_led.items() if of > term]
        return (1000 * (min(led) - began), took) if came and led else None

    async def put_till_taken(self, name):
        while not (await self.group.request(["put", name, "50", "main:1:linux:1:1:0"])) \
                .startswith("committed"):
            await asyncio.sleep(0.02)

    async def failovers(self):
        found = [await self.failover(serial) for serial in range(self.options.failovers)]
        done = [it for it in found if it is not None]
        waits = waits_of(self.options.server_settings)
        print(f"failover, {len(done)} of {len(found)}, ms from SIGKILL, at "
              + " ".join(f"{name}={ms}" for name, ms in waits.items()), flush=True)
        if not done:
            return
        print("till" + " " * 18 + "".join(f"{name:>8}" for name, _ in PARTS))
        for words, place in (("another leads", 0), ("an allocation is placed", 1)):
            times = sorted(it[place] for it in done)
            print(f"{words:23}" + "".join(f"{part_of(times, part):8.0f}" for _, part in PARTS)[1:])
        longest = waits["least_wait"] + waits["more_wait"]
        bins = in_bins([it[1] for it in done], 500)
        print(", ".join(f"{count} from {ms / 1000:.1f} s" for ms, count in bins if count)
              + f"; {sum(it[1] <= longest for it in done)} within the longest wait,"
              f" {longest / 1000:.1f} s", flush=True)

    # -- memory

    async def fill(self):
        """Puts jobs till so many allocations are live, and says what memory servers took."""
        group, count, began = self.group, self.options.fill, time.monotonic()
        for place, groups in enumerate(jobs_of(count)):
            words = ",".join(f"{name}:{size}:linux:1:1:0" for name, size in groups)
            answer = await group.request(["put", f"fill-{place}", "50", words], patience=60)
            if not answer.startswith("committed"):
                group.book.wrong(f"fill-{place} is not put: {answer}")
        rows = group.book.cluster.allocs.rows
        last, when = len(rows), time.monotonic()
        while len(rows) < count and time.monotonic() < when + 60:
            if len(rows) > last:
                last, when = len(rows), time.monotonic()
            await asyncio.sleep(0.2)
        took = time.monotonic() - began
        print(f"{len(rows)} allocations of {count}, {len(rows) / took:.0f} a second; of each server"
              f" VmHWM, VmRSS and journal in MB", flush=True)
        for when in ("then", "10 s later"):
            for me, server in group.servers.items():
                most, now = memory_of(server.process.transport.get_pid())
                print(f"{when}: server {me}, {server.role}, applied {server.applied}: {most:.1f}"
                      f" {now:.1f} {os.path.getsize(server.store) / 2 ** 20:.1f}", flush=True)
            if when == "then":
                await asyncio.sleep(10)

    async def go(self):
        if not await self.is_ready():
            self.group.book.wrong("no leader, or nodes that are not registered, after 30 s")
            return
        watching = asyncio.get_running_loop().create_task(self.watch())
        if self.options.fill:
            await self.fill()
        if self.options.failovers:
            await self.failovers()
        if self.options.measure:
            await self.rates()
        watching.cancel()
