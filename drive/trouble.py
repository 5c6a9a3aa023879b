"""A group with everything against it, and what is checked behind that."""
import asyncio
import random
import time

from cluster import named
from members import FIRST_CLIENT

MOST_EVALS = 50_000  # evaluations are never taken out: requests end before their table is full


class Trouble:
    """Kills, cuts, requests and ends of allocations, all by lot, till there is calm."""

    def __init__(self, group, options):
        self.group, self.options = group, options
        self.calm, self.drained, self.jobs = asyncio.Event(), set(), {}

    def lot(self, name):
        return random.Random(f"{self.options.seed} {name}")

    async def goes_on(self, seconds):
        """Waits so long; no, where calm has come."""
        try:
            await asyncio.wait_for(self.calm.wait(), seconds)
        except asyncio.TimeoutError:
            return True
        return False

    async def kills(self, members, name, most):
        """Kills some, and starts them again."""
        options, lot, group = self.options, self.lot(name), self.group
        while options.kill and await self.goes_on(options.kill * lot.uniform(0.5, 1.5)):
            victims = lot.sample(sorted(members), lot.randint(1, most))
            for one in victims:
                group.count[f"kills of {name}"] += 1
                await group.kill(members[one])
            await self.goes_on(lot.uniform(0, options.down))
            for one in victims:
                await group.start(members[one])

    async def cuts(self):
        """Cuts some directions, or all of one member, and heals them."""
        options, lot, net = self.options, self.lot("cuts"), self.group.net
        servers = sorted(self.group.servers)
        clients = [FIRST_CLIENT + number for number in sorted(self.group.clients)]
        pairs = [(a, b) for a in servers for b in servers + clients if a != b]
        pairs += [(b, a) for a in servers for b in clients]
        while options.cut and await self.goes_on(options.cut * lot.uniform(0.5, 1.5)):
            alone = lot.choice(servers + clients)
            net.cut = lot.choice([{pair for pair in pairs if alone in pair},
                                  set(lot.sample(pairs, lot.randint(1, len(servers))))])
            self.group.count["cuts"] += 1
            await self.goes_on(lot.uniform(0, options.cut))
            net.cut = set()

    async def asks(self, place):
        """Puts, stops and evaluates jobs of its own, one after the other."""
        options, lot = self.options, self.lot(f"asks {place}")
        names = [f"job-{place}-{serial}" for serial in range(4)]
        while await self.goes_on(options.pause * lot.uniform(0.5, 1.5)):
            if len(self.group.book.cluster.evals.rows) > MOST_EVALS:
                return
            name, kind = lot.choice(names), lot.choices(("put", "stop", "eval"), (6, 3, 1))[0]
            words = [kind, name]
            if kind == "put":
                words += [str(lot.randint(1, 100)), ",".join(
                    f"{group}:{lot.randint(0, 3)}:{self.klass(lot)}:{lot.randint(1, 40) * 10}"
                    f":{lot.randint(1, 40) * 10}:{lot.randint(0, 10)}"
                    for group in ("main", "side")[:lot.randint(1, 2)])]
            await self.group.request(words, patience=30)

    def klass(self, lot):
        return lot.choice(sorted({it.spec[0] for it in self.group.clients.values()}))

    async def drains(self):
        """Drains a node now and then: at most half of them, since none comes back from that."""
        lot, numbers = self.lot("drains"), sorted(self.group.clients)
        for number in lot.sample(numbers, len(numbers) // 2):
            if not await self.goes_on(self.options.drain * lot.uniform(0.5, 1.5)):
                return
            force = lot.choice(("slow", "force"))
            await self.group.request(["drain", str(number), force], patience=30)

    async def ends(self):
        """Has some of what runs end, where no command does."""
        lot = self.lot("ends")
        while await self.goes_on(self.options.pause * lot.uniform(0.5, 1.5)):
            client = lot.choice(list(self.group.clients.values()))
            idle = sorted(set(client.runner.running) - set(client.runner.processes))
            if idle and client.is_up():
                allocation = lot.choice(idle)
                client.runner.running.pop(allocation).cancel()
                client.tell_end(allocation, lot.random() < 0.7)
                self.group.count["ends"] += 1

    async def go(self):
        """All of it, for so many seconds, and then calm."""
        group, options = self.group, self.options
        some = max(1, (options.servers - 1) // 2)
        tasks = [self.kills(group.servers, "servers", some), self.cuts(), self.drains(),
                 self.ends()]
        if group.clients:
            tasks.append(self.kills(group.clients, "clients", 1))
        tasks += [self.asks(place) for place in range(options.askers)]
        running = [asyncio.get_running_loop().create_task(it) for it in tasks]
        states = asyncio.get_running_loop().create_task(self.look_at_states())
        await asyncio.sleep(options.chaos)
        self.calm.set()
        _, left = await asyncio.wait(running, timeout=options.quiet)
        for task in left:
            task.cancel()
        if left:
            group.book.wrong(f"{len(left)} tasks wait for an answer after {options.quiet} s of"
                             " calm")
        for task in set(running) - left:
            task.result()
        group.net.is_calm, group.net.cut = True, set()
        await self.settle()
        states.cancel()

    async def look_at_states(self):
        """Asks servers for their states, one after the other."""
        while True:
            for server in self.group.servers.values():
                await has_state(self.group, server)
                await asyncio.sleep(self.options.states)

    async def settle(self):
        """Waits till all servers have applied the same, behind a last command, and looks at all."""
        group, until = self.group, time.monotonic() + self.options.quiet
        last = None
        while time.monotonic() < until:
            last = await group.request(["eval", next(iter(group.book.cluster.jobs.rows), "none")])
            if last.startswith(("committed", "refused 8")):
                break
        else:
            group.book.wrong(f"nothing is committed in {self.options.quiet} s of calm: {last}")
        stand, waits = None, None
        while time.monotonic() < until:
            await asyncio.gather(*(it.stands() for it in group.servers.values()))
            stand = {(it.term, it.last, it.applied) for it in group.servers.values()}
            waits = [named(it.id) for it in group.book.cluster.evals.rows.values()
                     if it.status == "pending"]
            if len(stand) == 1 and not waits and len(set(next(iter(stand))[1:])) == 1:
                break
            await asyncio.sleep(0.2)
        else:
            group.book.wrong(f"after {self.options.quiet} s of calm the servers have not settled:"
                             f" {stand}, and these evaluations are pending: {waits}")
        for server in group.servers.values():
            await has_state(group, server)
        await self.runs_settle(until)

    async def runs_settle(self, until):
        """Each live allocation runs at its node's client, and no other."""
        wrongs = self.not_as_listed()
        while wrongs and time.monotonic() < until:
            await asyncio.sleep(0.2)
            wrongs = self.not_as_listed()
        for text in wrongs[:10]:
            self.group.book.wrong(text)
        self.group.book.are_placed()

    def not_as_listed(self):
        cluster, found = self.group.book.cluster, []
        for number, client in self.group.clients.items():
            live = {row[0] for row in cluster.list_of(number)}
            runs = set(client.runner.running)
            if live != runs and cluster.nodes.rows.get(number):
                found.append(f"client {number} runs {sorted(map(named, runs))}, and of node"
                             f" {number} {sorted(map(named, live))} are live")
        return found


async def has_state(group, server):
    """The state that a server says it has is that of the list."""
    text = await server.answer(b"V")
    if text:
        group.book.has_state(server.me, text)


def tell(group, took):
    """The numbers."""
    book = group.book
    applied = len(book.terms) - 1
    print(f"{took:.0f} seconds, {len(book.leads)} terms led, {applied} committed, {book.placed}"
          f" placed, {len(book.cluster.evals.rows)} evaluations")
    for names in (("kills of servers", "kills of clients", "cuts", "frames", "frames lost",
                   "frames repeated", "installs"),
                  ("proposals", "tickets", "committed", "lost", "covered", "refused", "untold"),
                  ("starts", "ends", "lists", "states", "lines", "refused frames")):
        print(", ".join(f"{name} {book.count[name]}" for name in names))
    print(f"wrong {len(book.wrongs)}", flush=True)
