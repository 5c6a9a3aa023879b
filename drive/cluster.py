"""The replicated state of a group as its texts say it, and what commands do to it.

It follows the definitions of `fields_model` and `fsm_model` a second time, in another language, so
that a driver can say what servers should have. Rows are tuples, in the order of their texts. Ranges
are not tested here: they are the servers' business.
"""
import collections
import struct

(NOOP, JOB_PUT, JOB_STOP, NODE_PUT, NODE_DOWN, DRAIN, DRAIN_DONE, MIGRATE, EVAL_PUT, EVAL_STATUS,
 PLAN, REPORT, DISCONNECT) = range(13)
ASKED_BY_OPERATORS = (JOB_PUT, JOB_STOP, DRAIN, EVAL_PUT)
NODE_STATUSES = ("ready", "down", "disconnected")
DRAINS = ("off", "slow", "force")
EVAL_STATUSES = ("pending", "blocked", "complete", "failed")
CLIENT_STATES = ("pending", "running", "complete", "failed", "lost", "unknown")
REPORTED = {1: "running", 2: "complete", 3: "failed"}
ACTIVE = ("pending", "running", "unknown")
MOST_JOBS, MOST_NODES, MOST_EVALS, MOST_ALLOCS = 256, 64, 65_536, 65_536

Group = collections.namedtuple("Group", "name count klass cpu mem disk")
Job = collections.namedtuple("Job", "name priority stopped version groups")
Node = collections.namedtuple("Node", "number klass cpu mem disk status eligible drain room")
Evaluation = collections.namedtuple("Evaluation", "id job priority status snapshot")
Allocation = collections.namedtuple(
    "Allocation", "id job group index node cpu mem disk desired client migrate eval")
Place = collections.namedtuple("Place", "group index node cpu mem disk")


# ---- texts

class Text:
    """Bytes, of which values are read one after the other."""

    def __init__(self, text, at=0):
        self.text, self.at = text, at

    def number(self, width):
        self.at += width
        if self.at > len(self.text):
            raise ValueError("a text is cut")
        return int.from_bytes(self.text[self.at - width:self.at], "big")

    def name(self):
        size = self.number(1)
        self.at += size
        return self.text[self.at - size:self.at].decode("ascii")

    def size(self):
        """Processor time, memory and disk."""
        return self.number(4), self.number(4), self.number(4)

    def eval_id(self):
        return self.number(8), self.number(2)

    def alloc_id(self):
        return self.number(8), self.number(1)

    def many(self, width, one):
        return tuple(one() for _ in range(self.number(width)))

    def group(self):
        return Group(self.name(), self.number(1), self.name(), *self.size())

    def job(self):
        return Job(self.name(), self.number(1), bool(self.number(1)), self.number(8),
                   self.many(1, self.group))

    def node(self):
        return Node(self.number(1), self.name(), *self.size(), NODE_STATUSES[self.number(1)],
                    bool(self.number(1)), DRAINS[self.number(1)], self.number(8))

    def evaluation(self):
        return Evaluation(self.eval_id(), self.name(), self.number(1),
                          EVAL_STATUSES[self.number(1)], self.number(8))

    def allocation(self):
        return Allocation(self.alloc_id(), self.name(), self.name(), self.number(1),
                          self.number(1), *self.size(), ("run", "stop")[self.number(1)],
                          CLIENT_STATES[self.number(1)], bool(self.number(1)), self.eval_id())

    def place(self):
        return Place(self.name(), self.number(1), self.number(1), *self.size())

    def report(self):
        return self.alloc_id(), REPORTED[self.number(1)]

    def plan(self):
        """Evaluation, token, job, snapshot, stops and places."""
        return (self.eval_id(), (self.number(8), self.number(8)), self.name(), self.number(8),
                self.many(1, self.alloc_id), self.many(1, self.place))

    def command(self):
        """The tag, and what the command holds."""
        tag = self.number(1)
        if tag == JOB_PUT:
            return tag, self.name(), self.number(1), self.many(1, self.group)
        if tag in (JOB_STOP, EVAL_PUT):
            return tag, self.name()
        if tag == NODE_PUT:
            return tag, self.number(1), self.name(), self.size()
        if tag in (NODE_DOWN, DRAIN_DONE, DISCONNECT):
            return tag, self.number(1)
        if tag == DRAIN:
            return tag, self.number(1), bool(self.number(1))
        if tag == MIGRATE:
            return tag, self.many(1, self.alloc_id)
        if tag == EVAL_STATUS:
            return tag, self.eval_id(), EVAL_STATUSES[self.number(1)], self.number(8)
        if tag == PLAN:
            return (tag, *self.plan())
        if tag == REPORT:
            return tag, self.number(1), self.many(1, self.report)
        if tag != NOOP:
            raise ValueError(f"no command has the tag {tag}")
        return (tag,)


def name_text(name):
    return bytes([len(name)]) + name.encode("ascii")


def group_text(word):
    """Of `NAME:COUNT:CLASS:CPU:MEMORY:DISK`, as lines have it."""
    name, count, klass, *size = word.split(":")
    if len(size) != 3:
        raise ValueError("a group is NAME:COUNT:CLASS:CPU:MEMORY:DISK")
    return name_text(name) + bytes([int(count)]) + name_text(klass) \
        + struct.pack(">III", *map(int, size))


def asked_text(words):
    """The text of the command that an operator's words ask for: `put NAME PRIORITY GROUPS`, `stop
    NAME`, `eval NAME`, `drain NODE slow` or `force`."""
    kind, rest = words[0], words[1:]
    if kind == "put" and len(rest) == 3:
        groups = [group_text(word) for word in rest[2].split(",")]
        return bytes([JOB_PUT]) + name_text(rest[0]) + bytes([int(rest[1]), len(groups)]) \
            + b"".join(groups)
    if kind in ("stop", "eval") and len(rest) == 1:
        return bytes([JOB_STOP if kind == "stop" else EVAL_PUT]) + name_text(rest[0])
    if kind == "drain" and len(rest) == 2 and rest[1] in ("slow", "force"):
        return bytes([DRAIN, int(rest[0]), rest[1] == "force"])
    raise ValueError("no request: put NAME PRIORITY GROUPS, stop NAME, eval NAME, or"
                     " drain NODE slow or force")


def entries_of(body):
    """Of the body of an Append each entry's index, term and command, and the term before it."""
    text = Text(body, 33)
    index, before = int.from_bytes(body[8:16], "big"), int.from_bytes(body[16:24], "big")
    for _ in range(body[32]):
        index, term, start = index + 1, text.number(8), text.at
        text.command()
        yield index, term, bytes(body[start:text.at]), before
        before = term


def named(allocation_id):
    return f"{allocation_id[0]}.{allocation_id[1]}"


# ---- the state

def is_live(row):
    return row.desired == "run" and row.client in ACTIVE


class Table:
    """Rows by their keys, of which there are at most so many. `total` tells what stands there."""

    def __init__(self, most):
        self.most, self.rows, self.total = most, {}, 0

    def put(self, key, row):
        """A row that is there is replaced; another comes where there is room. It answers the old
        row, and whether the new one stands there."""
        old = self.rows.get(key)
        if old is None and len(self.rows) >= self.most:
            return None, False
        if old is not None:
            self.total -= hash(old)
        self.total += hash(row)
        self.rows[key] = row
        return old, True


class Cluster:
    """A state: how many commands it saw, and its four tables."""

    def __init__(self):
        self.count = 0
        self.jobs, self.nodes = Table(MOST_JOBS), Table(MOST_NODES)
        self.evals, self.allocs = Table(MOST_EVALS), Table(MOST_ALLOCS)
        self.on = collections.defaultdict(set)    # node -> ids of what is active there
        self.live = collections.defaultdict(set)  # name -> ids of the live ones
        self.used = collections.defaultdict(lambda: [0, 0, 0])
        self.faults = []  # what of a safe state does not hold

    @classmethod
    def read(cls, text):
        """The state that a text says, which ends with it."""
        reading, new = Text(text), cls()
        new.count = reading.number(8)
        for _ in range(reading.number(4)):
            row = reading.job()
            new.jobs.put(row.name, row)
        for _ in range(reading.number(4)):
            row = reading.node()
            new.nodes.put(row.number, row)
        for _ in range(reading.number(4)):
            row = reading.evaluation()
            new.evals.put(row.id, row)
        for _ in range(reading.number(4)):
            new.put_alloc(reading.allocation())
        if reading.at != len(text):
            raise ValueError("a text goes on behind its state")
        return new

    def told(self):
        """A number that tells the rows, and no other rows, as far as can be seen."""
        return hash((self.jobs.total, self.nodes.total, self.evals.total, self.allocs.total))

    # -- rows

    def put_alloc(self, row):
        old, stands = self.allocs.put(row.id, row)
        if old is not None:
            self.forget(old)
        if not stands:
            return
        if row.client in ACTIVE:
            self.on[row.node].add(row.id)
        if is_live(row):
            self.live[row.job, row.group, row.index].add(row.id)
            self.use(row, 1)

    def forget(self, row):
        if row.client in ACTIVE:
            self.on[row.node].discard(row.id)
        if is_live(row):
            self.live[row.job, row.group, row.index].discard(row.id)
            self.use(row, -1)

    def use(self, row, sign):
        used = self.used[row.node]
        for place, part in enumerate((row.cpu, row.mem, row.disk)):
            used[place] += sign * part

    def change_node(self, number, **parts):
        row = self.nodes.rows.get(number)
        if row is not None:
            self.nodes.put(number, row._replace(**parts))

    def touch(self, names):
        """One new evaluation for each job of these that has a row, in the order of the names."""
        slot = 0
        for name in sorted(set(names) & self.jobs.rows.keys()):
            key = (self.count, slot)
            job = self.jobs.rows[name]
            self.evals.put(key, Evaluation(key, name, job.priority, "pending", 0))
            slot += 1

    def end(self, changes):
        """These rows take the place of theirs. A node of which one ends has room from now on."""
        for row in changes:
            old = self.allocs.rows[row.id]
            self.put_alloc(row)
            if is_live(old) and not is_live(row):
                self.change_node(old.node, room=self.count)

    # -- what commands do

    def apply(self, command):
        self.count += 1
        self.faults = []
        EFFECTS[command[0]](self, *command[1:])
        return self.faults

    def put_job(self, name, priority, groups):
        self.jobs.put(name, Job(name, priority, False, self.count, groups))
        self.touch([name])

    def stop_job(self, name):
        row = self.jobs.rows.get(name)
        if row is not None:
            self.jobs.put(name, row._replace(stopped=True, version=self.count))
        self.touch([name])

    def put_node(self, number, klass, size):
        old = self.nodes.rows.get(number)
        new = Node(number, klass, *size, "ready", True, "off", self.count) if old is None \
            else old._replace(status="ready", room=self.count)
        self.nodes.put(number, new)

    def unreach(self, number, status, client):
        """What was not final on a node is in this client state. The jobs of what was live."""
        self.change_node(number, status=status)
        rows = [self.allocs.rows[key] for key in self.on[number]]
        jobs = {row.job for row in rows if is_live(row)}
        for row in rows:
            self.put_alloc(row._replace(client=client))
        return jobs

    def node_down(self, number):
        if number in self.nodes.rows:
            self.touch(self.unreach(number, "down", "lost"))

    def disconnect(self, number):
        if number in self.nodes.rows:
            self.unreach(number, "disconnected", "unknown")

    def drain(self, number, force):
        self.change_node(number, eligible=False, drain="force" if force else "slow")

    def drain_done(self, number):
        self.change_node(number, drain="off")

    def migrate(self, keys):
        rows = [self.allocs.rows[key] for key in keys if key in self.allocs.rows]
        rows = [row for row in rows if is_live(row)]
        for row in rows:
            self.put_alloc(row._replace(migrate=True))
        self.touch({row.job for row in rows})

    def put_eval(self, name):
        self.touch([name])

    def set_status(self, key, status, snapshot):
        row = self.evals.rows.get(key)
        if row is not None and row.status in ("pending", "blocked"):
            self.evals.put(key, row._replace(status=status, snapshot=snapshot))

    def plan(self, key, token, job, snapshot, stops, places):
        rows = [self.allocs.rows[it] for it in stops if it in self.allocs.rows]
        self.end([row._replace(desired="stop") for row in rows if row.desired == "run"])
        for slot, place in enumerate(places):
            row = Allocation((self.count, slot), job, place.group, place.index, place.node,
                             place.cpu, place.mem, place.disk, "run", "pending", False, key)
            self.put_alloc(row)
            self.check(row)

    def report(self, number, reports):
        touched = set()
        for key, state in reports:
            row = self.allocs.rows.get(key)
            if row is None or row.node != number or row.client not in ACTIVE:
                continue
            if is_live(row) and state != "running":
                touched.add(row.job)
            self.end([row._replace(client=state)])
        self.touch(touched)

    # -- what is safe

    def check(self, row):
        """What was placed fits its node, and nothing else has its name."""
        if len(self.live[row.job, row.group, row.index]) > 1:
            self.faults.append(f"{row.job}.{row.group}[{row.index}] is live twice")
        self.faults += self.over(row.node)

    def over(self, number):
        node = self.nodes.rows.get(number)
        if node is None:
            return [f"node {number} has allocations, and no row"] if any(self.used[number]) else []
        size = (node.cpu, node.mem, node.disk)
        if any(used > most for used, most in zip(self.used[number], size)):
            return [f"node {number} of size {size} is used up to {self.used[number]}"]
        return []

    def all_faults(self):
        """All of a state that is not safe."""
        twice = [f"{job}.{group}[{index}] is live {len(keys)} times"
                 for (job, group, index), keys in self.live.items() if len(keys) > 1]
        return twice + [fault for number in sorted(self.used) for fault in self.over(number)]

    def free(self, number):
        """What a node has room for."""
        node = self.nodes.rows[number]
        return tuple(most - used
                     for most, used in zip((node.cpu, node.mem, node.disk), self.used[number]))

    def list_of(self, number):
        """What the client of a node is told to run: id, size and state of each that is live."""
        states = {"pending": 0, "running": 1, "unknown": 2}
        rows = (self.allocs.rows[key] for key in sorted(self.on[number]))
        return tuple((row.id, (row.cpu, row.mem, row.disk), states[row.client])
                     for row in rows if is_live(row))


EFFECTS = {
    NOOP: lambda state: None, JOB_PUT: Cluster.put_job, JOB_STOP: Cluster.stop_job,
    NODE_PUT: Cluster.put_node, NODE_DOWN: Cluster.node_down, DRAIN: Cluster.drain,
    DRAIN_DONE: Cluster.drain_done, MIGRATE: Cluster.migrate, EVAL_PUT: Cluster.put_eval,
    EVAL_STATUS: Cluster.set_status, PLAN: Cluster.plan, REPORT: Cluster.report,
    DISCONNECT: Cluster.disconnect,
}
