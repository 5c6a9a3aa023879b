"""A state as JSON: names and forms are those of docs/inspect.schema.json (`$defs/state`).

Of an evaluation that is open it says what a worker would find. So a worker's plan is made here a
second time, by its definition (`Scheduling` of `group_model`).
"""
import collections
import json

from cluster import named

MOST_CHANGES = 64  # stops, and places, of one plan
OPEN = ("pending", "blocked")
VERDICTS = ("other_class", "not_ready", "not_eligible", "lack_cpu", "lack_memory", "lack_disk",
            "have_room")

WantedName = collections.namedtuple("WantedName", "group index")


def size_of(row):
    return row.cpu, row.mem, row.disk


def verdict(node, group, used):
    """The first reason for which a node, of which so much is in use, takes none of a group."""
    if node.klass != group.klass:
        return "other_class"
    if node.status != "ready":
        return "not_ready"
    if not node.eligible:
        return "not_eligible"
    for name, taken, more, most in zip(VERDICTS[3:], used, size_of(group), size_of(node)):
        if taken + more > most:
            return name
    return "have_room"


def fullness(node, used, group):
    """How full a node is with one more of a group, in thousandths of its processor time and of its
    memory, each rounded down."""
    return 1000 * (used[0] + group.cpu) // node.cpu + 1000 * (used[1] + group.mem) // node.mem


def less(used, row):
    return tuple(taken - part for taken, part in zip(used, size_of(row)))


class Plan:
    """What a worker would plan for a job at a state: `live` has the job's live allocations."""

    def __init__(self, state, job, live):
        self.state, self.stops, self.places = state, [], []
        self.used = {number: tuple(state.used[number]) for number in sorted(state.nodes.rows)}
        groups = job.groups if job is not None and not job.stopped else ()
        names = [WantedName(group, index) for group in groups for index in range(group.count)]
        self.live = {(row.group, row.index): row for row in live}
        wanted = {(name.group.name, name.index) for name in names}
        for row in [row for row in live if (row.group, row.index) not in wanted][:MOST_CHANGES]:
            self.stop(row)
        self.missing = [name for name in names if not self.is_met(name)]
        for name in self.missing:
            if self.is_full():
                break
            self.place(name)

    def is_full(self):
        return max(len(self.stops), len(self.places)) >= MOST_CHANGES

    def is_met(self, name):
        """It has a live allocation, which stays, as its group asks in size and class."""
        row = self.live.get((name.group.name, name.index))
        if row is None or row.migrate or size_of(row) != size_of(name.group):
            return False
        node = self.state.nodes.rows.get(row.node)
        return node is not None and node.klass == name.group.klass

    def stop(self, row):
        self.stops.append(row.id)
        if row.node in self.used:
            self.used[row.node] = less(self.used[row.node], row)

    def place(self, name):
        """On the node that gets fullest, and of two as full on the first: the room of the old
        allocation of the name is free. Where no node takes it, nothing is done for the name."""
        old, best, most = self.live.get((name.group.name, name.index)), None, -1
        for number, used in self.used.items():
            node = self.state.nodes.rows[number]
            if old is not None and old.node == number:
                used = less(used, old)
            if verdict(node, name.group, used) == "have_room" \
                    and fullness(node, used, name.group) > most:
                best, most = number, fullness(node, used, name.group)
        if best is None:
            return
        if old is not None:
            self.stop(old)
        self.used[best] = tuple(map(sum, zip(self.used[best], size_of(name.group))))
        self.places.append((name, best))

    def found(self, group):
        """What it is to a group of the job, and what the nodes of the state are to the group."""
        missing = sum(name.group == group for name in self.missing)
        placed = sum(name.group == group for name, _ in self.places)
        counts = collections.Counter(
            verdict(node, group, self.state.used[number])
            for number, node in self.state.nodes.rows.items())
        return {"group": group.name, "missing": missing, "placed": placed,
                "fits_on_none": missing > 0 and placed == 0 and not self.is_full(),
                "nodes": {name: counts[name] for name in VERDICTS}}


class Finder:
    """What workers would find at a state. A plan is the same for each evaluation of a job."""

    def __init__(self, state):
        self.state, self.known, self.live = state, {}, collections.defaultdict(list)
        for key in sorted(key for keys in state.live.values() for key in keys):
            row = state.allocs.rows[key]
            self.live[row.job].append(row)

    def groups(self, name):
        if name not in self.known:
            job = self.state.jobs.rows.get(name)
            plan = Plan(self.state, job, self.live.get(name, []))
            groups = job.groups if job is not None and not job.stopped else ()
            self.known[name] = [plan.found(group) for group in groups]
        return self.known[name]


# ---- rows

def job_report(row):
    groups = [{"group": it.name, "count": it.count, "class": it.klass, "cpu": it.cpu,
               "mem": it.mem, "disk": it.disk} for it in row.groups]
    return {"job": row.name, "priority": row.priority, "version": row.version,
            "stopped": row.stopped, "groups": groups}


def node_report(state, row):
    cpu, mem, disk = state.used[row.number]
    return {"node": row.number, "class": row.klass, "status": row.status,
            "eligible": row.eligible, "drain": row.drain, "cpu": row.cpu, "cpu_used": cpu,
            "mem": row.mem, "mem_used": mem, "disk": row.disk, "disk_used": disk}


def evaluation_report(row, finder):
    return {"evaluation": named(row.id), "job": row.job, "priority": row.priority,
            "status": row.status, "snapshot": row.snapshot,
            "groups": finder.groups(row.job) if row.status in OPEN else []}


def allocation_report(row):
    return {"allocation": named(row.id), "name": f"{row.job}.{row.group}[{row.index}]",
            "node": row.node, "cpu": row.cpu, "mem": row.mem, "disk": row.disk,
            "desired": row.desired, "state": row.client, "migrate": row.migrate,
            "evaluation": named(row.eval)}


def rows_of(table):
    return [row for _, row in sorted(table.rows.items())]


def state_report(state, servers):
    """The report of a state that these servers have applied."""
    finder = Finder(state)
    return {"applied": state.count, "servers": sorted(servers),
            "jobs": [job_report(row) for row in rows_of(state.jobs)],
            "nodes": [node_report(state, row) for row in rows_of(state.nodes)],
            "evaluations": [evaluation_report(row, finder) for row in rows_of(state.evals)],
            "allocations": [allocation_report(row) for row in rows_of(state.allocs)]}


def state_text(state, servers):
    """In one line."""
    return json.dumps(state_report(state, servers), separators=(",", ":"))
