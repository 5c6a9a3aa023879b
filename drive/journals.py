"""Texts of states and journals of servers, written a second time: by their formats (`fields_model`,
`raft_snapshot`, `raft_records`, `journal`)."""
from hashlib import sha256

from cluster import CLIENT_STATES, DRAINS, EVAL_STATUSES, NODE_STATUSES, name_text
from links import VERSION, spelled

EMPTY = bytes(24)  # the first state: no command, and four empty tables


def listed(width, texts):
    texts = list(texts)
    return len(texts).to_bytes(width, "big") + b"".join(texts)


def size_text(row):
    return b"".join(value.to_bytes(4, "big") for value in (row.cpu, row.mem, row.disk))


def eval_id_text(key):
    return spelled(key[0]) + key[1].to_bytes(2, "big")


def alloc_id_text(key):
    return spelled(key[0]) + key[1].to_bytes(1, "big")


def group_text(row):
    return name_text(row.name) + bytes([row.count]) + name_text(row.klass) + size_text(row)


def job_text(row):
    return name_text(row.name) + bytes([row.priority, row.stopped]) + spelled(row.version) \
        + listed(1, map(group_text, row.groups))


def node_text(row):
    return bytes([row.number]) + name_text(row.klass) + size_text(row) \
        + bytes([NODE_STATUSES.index(row.status), row.eligible, DRAINS.index(row.drain)]) \
        + spelled(row.room)


def evaluation_text(row):
    return eval_id_text(row.id) + name_text(row.job) \
        + bytes([row.priority, EVAL_STATUSES.index(row.status)]) + spelled(row.snapshot)


def allocation_text(row):
    return alloc_id_text(row.id) + name_text(row.job) + name_text(row.group) \
        + bytes([row.index, row.node]) + size_text(row) \
        + bytes([("run", "stop").index(row.desired), CLIENT_STATES.index(row.client),
                 row.migrate]) + eval_id_text(row.eval)


def state_text(state):
    """The text of a state."""
    texts = [spelled(state.count)]
    for table, text in ((state.jobs, job_text), (state.nodes, node_text),
                        (state.evals, evaluation_text), (state.allocs, allocation_text)):
        texts.append(listed(4, (text(row) for _, row in sorted(table.rows.items()))))
    return b"".join(texts)


# ---- journals

def header(me, of):
    return f"minutebarn journal 1 server_node {me} of {of}\n".encode("ascii")


def record(payload):
    return sha256(payload).digest()[:8] + len(payload).to_bytes(4, "big") + payload


def change(term, vote, kept, kept_term, entries):
    """So many entries are kept, of which the last is of a term; these come behind them."""
    return spelled(term) + bytes([vote]) + spelled(kept) + spelled(kept_term) \
        + spelled(len(entries)) + b"".join(spelled(of) + text for of, text in entries)


def whole(term, vote, index, index_term, state, entries=()):
    """The state behind so many entries, and those that come behind it."""
    return bytes([VERSION]) + change(term, vote, index, index_term, entries) + state


def growing(term, index, index_term, text, each):
    """Records without end of so many entries each, all of one command, behind an index."""
    while True:
        yield record(change(term, 0, index, index_term, [(term, text)] * each))
        index, index_term = index + each, term
