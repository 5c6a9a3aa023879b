"""A server and a client of a group as a driver sees them: a process that is started again and
again, its clock, and its connections."""
import asyncio
import os
import re
import signal
import time

from links import CLIENT, Keyed, Link, Process, Way, item, number, spelled

FIRST_CLIENT = 128  # client C is 128 + C where a frame names it
LISTING = 17
TICK = 0.01  # seconds between items of time, at most
STATUS = re.compile(rb"server (\w+) term (\d+) last (\d+) applied (\d+)$")


def name_of(actor):
    return f"server {actor}" if actor < FIRST_CLIENT else f"client {actor - FIRST_CLIENT}"


class Member:
    """A process of a group. What goes in is handed over with the time that passed behind it, all of
    a moment at once: so the process may take it as one batch."""

    def __init__(self, me, key, tick, watch=None, fate=None):
        self.me, self.key, self.tick, self.watch, self.fate = me, key, tick, watch, fate
        self.process, self.life, self.links, self.tasks = None, 0, {}, []
        self.items, self.due, self.clock = [], False, time.monotonic()

    # -- its life

    def words(self):
        """The words of its command line, of this life."""
        raise NotImplementedError

    def call(self, addresses):
        """Begins to call these, and to tell the time."""
        for to, address in addresses.items():
            if to != self.me:
                self.links[to] = Link(self.key, self.me, to, address, self.take_message)
        self.tasks.append(asyncio.get_running_loop().create_task(self.pass_time()))

    async def start(self):
        self.life += 1
        self.items, self.clock = [], time.monotonic()
        self.process = await Process.start(self.words(), name_of(self.me), self.take,
                                           self.take_stray)
        process = self.process
        process.ended.add_done_callback(lambda _: self.forget(process))
        return process

    def is_up(self):
        return self.process is not None and not self.process.ended.done()

    async def kill(self):
        """Kills it, and waits till all is read that it wrote before."""
        self.process.kill()
        await self.process.ended

    def forget(self, process):
        """The process has ended."""

    def close(self):
        for task in self.tasks + [link.task for link in self.links.values()]:
            task.cancel()

    async def end(self):
        """Ends its input, and so the process."""
        self.close()
        if self.is_up():
            self.process.close()
            try:
                await asyncio.wait_for(asyncio.shield(self.process.ended), 20)
            except asyncio.TimeoutError:
                await self.kill()

    # -- what goes in

    async def pass_time(self):
        while True:
            await asyncio.sleep(self.tick)
            self.flush()

    def give(self, body):
        if self.is_up():
            self.items.append(item(body))
            if not self.due:
                self.due = True
                asyncio.get_running_loop().call_soon(self.flush)

    def flush(self):
        self.due = False
        if not self.is_up() or self.process.is_full():
            return
        ms = int((time.monotonic() - self.clock) * 1000)
        self.clock += ms / 1000
        self.items.append(item(b"K" + ms.to_bytes(4, "big")))
        items, self.items = self.items, []
        self.process.give(b"".join(items))

    def take_frame(self, frame):
        if self.is_up() and not self.process.is_full():
            self.give(frame)

    # -- what comes out

    def take(self, text):
        """Takes an item of its output."""
        self.send(text)

    def send(self, frame):
        """A frame leaves the process."""
        if len(frame) < 8:
            self.take_stray(f"no frame: {frame.hex()}")
            return
        if self.watch:
            self.watch.frame(self.me, frame)
        to = frame[3]
        for delay in self.fate(self.me, to) if self.fate else (0,):
            if delay:
                asyncio.get_running_loop().call_later(delay, self.put, to, frame)
            else:
                self.put(to, frame)

    def put(self, to, frame):
        """Puts a frame on its way; one to itself comes back."""
        if to == self.me:
            self.take_frame(frame)
        elif to in self.links:
            self.links[to].put(frame)

    def take_stray(self, line):
        if self.watch:
            self.watch.stray(self.me, line)
        else:
            print(f"{name_of(self.me)}: {line}", flush=True)

    # -- what comes by a link

    def take_message(self, keyed, body):
        """A frame, whose sender and receiver are those of the connection."""
        if len(body) < 8 or body[2] != keyed.peer or body[3] != self.me:
            raise ValueError("a frame of another")
        self.take_frame(body)


class Server(Member):
    """A server of a group. `asked` is whom to answer, by ids."""

    def __init__(self, me, of, store, options, key, watch=None, fate=None):
        super().__init__(me, key, TICK, watch, fate)
        self.of, self.store, self.options = of, store, options
        self.listener, self.callers, self.asked, self.last_id = None, {}, {}, 0
        self.role, self.term, self.last, self.applied = "down", 0, 0, 0

    def words(self):
        seed = int.from_bytes(os.urandom(7), "big")
        return [self.options.server_program, str(self.me), str(self.of), self.store, str(seed),
                *self.options.server_settings]

    async def listen(self, host, port):
        loop = asyncio.get_running_loop()
        self.listener = await loop.create_server(
            lambda: Keyed(self.key, self.me, None, self.take_call, False), host, port)
        return self.listener.sockets[0].getsockname()[:2]

    async def start(self):
        self.role = "follower"
        return await super().start()

    def close(self):
        super().close()
        if self.listener:
            self.listener.close()

    def forget(self, process):
        self.role = "down"
        asked, self.asked = self.asked, {}
        for take in asked.values():
            take(None)

    # -- what it is asked

    def ask(self, letter, rest, take):
        """Asks by an item, and has each answer taken: None where the process ends first. What takes
        one says whether it waits for another."""
        if not self.is_up():
            take(None)
            return
        self.last_id += 1
        self.asked[self.last_id] = take
        self.give(letter + spelled(self.last_id) + rest)

    async def answer(self, letter, rest=b""):
        """The one answer; None where the process ends first."""
        found = asyncio.get_running_loop().create_future()

        def take(text):
            if not found.done():
                found.set_result(text)

        self.ask(letter, rest, take)
        return await found

    async def stands(self):
        """Asks how it stands. Whether it said so."""
        life, text = self.life, await self.answer(b"S")
        found = STATUS.match(text or b"")
        if text is not None and not found:
            self.take_stray(f"no status: {text!r}")
        if not found or life != self.life or not self.is_up():
            return False
        self.role = found[1].decode()
        self.term, self.last, self.applied = map(int, found.groups()[1:])
        if self.watch:
            self.watch.stands(self.me, self.life, self.role, self.term, self.last, self.applied)
        return True

    def take(self, text):
        if text[:1] != b"A":
            self.send(text)
            return
        key = number(text, 1)
        take = self.asked.get(key)
        if take is None:
            self.take_stray(f"an answer to nobody: {text!r}")
        elif not take(bytes(text[9:])):
            self.asked.pop(key, None)

    # -- links

    def put(self, to, frame):
        if to in self.callers:
            self.callers[to].put(frame)
        else:
            super().put(to, frame)

    def take_call(self, keyed, body):
        """What comes by a connection to this server: of another server or a client a frame, of one
        who asks a question."""
        if keyed.peer == CLIENT:
            self.take_question(keyed, body)
            return
        if keyed.peer > FIRST_CLIENT and (keyed.peer not in self.callers
                                          or self.callers[keyed.peer].keyed is not keyed):
            self.callers[keyed.peer] = Way(keyed)
        self.take_message(keyed, body)

    def take_question(self, keyed, body):
        """An item of L, Q, S or V with the asker's own id: so are its answers. `down` says that the
        process is not there, `ended` that it ended before it answered."""
        letter, asker, rest = body[:1], body[1:9], body[9:]
        if letter not in (b"L", b"Q", b"S", b"V") or len(asker) != 8:
            raise ValueError("no question")
        way = Way(keyed)

        def take(text):
            way.put(asker + (b"ended" if text is None else text))
            return letter == b"L" and text is not None and text.startswith(b"ticket")

        if self.is_up():
            self.ask(letter, rest, take)
        else:
            way.put(asker + b"down")


class Client(Member):
    """A client of a group, and what runs the allocations that it says."""

    def __init__(self, number, spec, of, store, options, key, runner, watch=None, fate=None):
        super().__init__(FIRST_CLIENT + number, key, 5 * TICK, watch, fate)
        self.number, self.spec, self.of, self.store = number, spec, of, store
        self.options, self.runner = options, runner
        runner.ended = self.tell_end
        self.index = 0

    def words(self):
        return [self.options.client_program, str(self.number), *map(str, self.spec), str(self.of),
                self.store, *self.options.client_settings]

    def forget(self, process):
        """After a restart nothing runs."""
        self.runner.stop_all()

    def close(self):
        super().close()
        self.runner.stop_all()

    def take_frame(self, frame):
        if frame[1] == LISTING:
            self.index = max(self.index, number(frame, 8))
        super().take_frame(frame)

    def take(self, text):
        word, _, name = bytes(text).partition(b" ")
        if word not in (b"start", b"stop"):
            self.send(text)
            return
        index, place = map(int, name.split(b"."))
        if word == b"stop":
            self.runner.stop((index, place))
            return
        if self.watch:
            self.watch.started(self.number, (index, place))
        self.runner.start((index, place))

    def tell_end(self, allocation, is_well):
        """What ran has ended by itself."""
        word = "complete" if is_well else "failed"
        line = f"end {self.number} {allocation[0]}.{allocation[1]} {word}"
        self.give(b"E" + line.encode())


# ---- what runs

class Runner:
    """Runs the commands of allocations on one node: each in a session and a folder of its own.
    Where there is none for a group nothing runs, and nothing ends by itself.

    `commands` has for JOB.GROUP, JOB or `*` a line for the shell. `named` finds the job, the group
    and the index of an allocation's id, once it is known."""

    def __init__(self, number, folder, commands, named):
        self.number, self.folder, self.commands, self.named = number, folder, commands, named
        self.ended = lambda allocation, is_well: None
        self.running, self.processes = {}, {}  # id -> its task; id -> its process
        os.makedirs(folder, exist_ok=True)
        self.notes = f"{folder}/running"
        self.end_old()

    def command_of(self, job, group):
        for key in (f"{job}.{group}", job, "*"):
            if key in self.commands:
                return self.commands[key]
        return None

    def start(self, allocation):
        self.running[allocation] = asyncio.get_running_loop().create_task(self.run(allocation))

    async def run(self, allocation):
        while True:
            found = await self.named(allocation)
            if found:
                break
            await asyncio.sleep(0.1)
        line = self.command_of(*found[:2])
        if line is None:
            return
        status = await self.run_line(allocation, found, line)
        if self.running.pop(allocation, None) is not None:
            self.ended(allocation, status == 0)

    async def run_line(self, allocation, found, line):
        """The status of the command, once it has ended."""
        name = f"{allocation[0]}.{allocation[1]}"
        folder = f"{self.folder}/{name}"
        os.makedirs(folder, exist_ok=True)
        job, group, index = found
        surroundings = {**os.environ, "JOB": job, "GROUP": group, "INDEX": str(index),
                        "NODE": str(self.number), "ALLOCATION": name}
        with open(f"{folder}/out", "ab") as out:
            try:
                process = await asyncio.create_subprocess_exec(
                    "/bin/sh", "-c", line, cwd=folder, env=surroundings, start_new_session=True,
                    stdin=asyncio.subprocess.DEVNULL, stdout=out, stderr=out)
            except OSError as error:
                print(f"client {self.number} cannot run {name}: {error}", flush=True)
                return 1
        self.processes[allocation] = process
        self.note()
        try:
            return await process.wait()
        finally:
            self.processes.pop(allocation, None)
            end_session(process.pid, signal.SIGKILL)
            self.note()

    def stop(self, allocation):
        """It is asked to end, and killed where it has not in five seconds."""
        task = self.running.pop(allocation, None)
        process = self.processes.get(allocation)
        if process is None or process.returncode is not None:
            if task:
                task.cancel()
            return
        asyncio.get_running_loop().create_task(self.stop_gently(process, task))

    async def stop_gently(self, process, task):
        end_session(process.pid, signal.SIGTERM)
        try:
            await asyncio.wait_for(process.wait(), 5)
        except asyncio.TimeoutError:
            pass
        task.cancel()

    def stop_all(self):
        """All ends at once, and nobody is told."""
        running, self.running = self.running, {}
        for allocation, task in running.items():
            process = self.processes.get(allocation)
            if process is not None and process.returncode is None:
                end_session(process.pid, signal.SIGKILL)
            task.cancel()

    # -- over a death of the driver

    def note(self):
        """Which sessions run, with when they began: for who starts after a death of this driver."""
        rows = [f"{process.pid} {began(process.pid)}\n" for process in self.processes.values()]
        with open(self.notes, "w", encoding="ascii") as file:
            file.writelines(rows)

    def end_old(self):
        """Ends what a driver before this one left."""
        try:
            with open(self.notes, encoding="ascii") as file:
                rows = [line.split() for line in file]
        except OSError:
            return
        for pid, when in rows:
            if began(int(pid)) == when:
                end_session(int(pid), signal.SIGKILL)


def began(pid):
    """When a process began, as the system counts; `-` where there is none."""
    try:
        with open(f"/proc/{pid}/stat", encoding="ascii", errors="replace") as file:
            return file.read().rsplit(")", 1)[1].split()[19]
    except (OSError, IndexError):
        return "-"


def end_session(pid, sign):
    try:
        os.killpg(pid, sign)
    except (ProcessLookupError, PermissionError):
        pass
