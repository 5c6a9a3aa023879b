"""What is checked of servers of one log, whatever its commands are, as it is heard."""
import array
import collections

from links import APPEND, INSTALL, VERSION, VOTE_REPLY, VOTE_REQUEST, WORD, number


class LogBook:
    """What servers sent, and the one list of commands, as frames carried it. Who makes one says how
    long a command's text is (`entries_of`), what a state is (`state_of`), what a command does to it
    (`changed`, which answers a number that tells the state), and which commands nobody asks for
    (`is_own`)."""

    def __init__(self):
        self.wrongs, self.count = [], collections.Counter()
        self.leads, self.votes, self.frame_term, self.line_term = {}, {}, {}, {}
        self.life_applied = {}
        self.proposed, self.tickets = {}, {}
        self.entries = {}  # index -> term -> (command, term before)
        self.terms, self.texts, self.sums = (array.array("Q", [0]) for _ in range(3))
        self.states, self.lost = {}, {}
        self.base = 0  # up to this index nothing is known of the list

    def wrong(self, text):
        self.wrongs.append(text)
        if len(self.wrongs) <= 50:
            print(f"wrong: {text}", flush=True)

    def stray(self, me, line):
        self.wrong(f"server {me} says, unasked: {line}")

    # -- what servers say

    def frame(self, me, frame):
        """A frame of those by which servers keep one log."""
        kind, to, body, term = frame[1], frame[3], frame[8:], number(frame, 8)
        self.count["frames"] += 1
        if frame[0] != VERSION or frame[2] != me:
            self.wrong(f"server {me} sends in another's name")
        self.term_is(self.frame_term, me, term)
        if kind == VOTE_REQUEST:
            self.vote(me, term, me)
        elif kind == VOTE_REPLY and body[16]:
            self.vote(me, term, to)
        elif kind == APPEND:
            self.leader(me, term)
            self.append(me, body)
        elif kind == INSTALL:
            self.leader(me, term)
            index, index_term, count, state = self.state_of(body)
            self.count["installs"] += 1
            if count != index:
                self.wrong(f"server {me} sends a state of {count} commands at index {index}")
            self.state(me, index, state)

    def append(self, me, body):
        for entry in self.entries_of(body):
            self.entry(*entry)

    def term_is(self, terms, me, term):
        """Terms only rise, also over restarts."""
        if term < terms.get(me, 0):
            self.wrong(f"server {me} falls from term {terms[me]} to {term}")
        terms[me] = term

    def vote(self, me, term, candidate):
        if self.votes.setdefault((me, term), candidate) != candidate:
            self.wrong(f"server {me} votes twice in term {term}")

    def leader(self, me, term):
        if self.leads.setdefault(term, me) != me:
            self.wrong(f"servers {self.leads[term]} and {me} both lead in term {term}")

    def stands(self, me, life, role, term, last, applied):
        """How a server says that it stands."""
        self.count["lines"] += 1
        self.term_is(self.line_term, me, term)
        if role == "leader":
            self.leader(me, term)
        if applied < self.life_applied.get((me, life), 0) or applied > last:
            self.wrong(f"server {me} has applied {applied} of {last}")
        self.life_applied[me, life] = applied

    def starts(self, me):
        """A process starts: by now its terms are at least what the one before said."""
        most = max(self.frame_term.get(me, 0), self.line_term.get(me, 0))
        self.frame_term[me] = self.line_term[me] = most

    # -- the one list

    def entry(self, index, term, text, before):
        """An entry in a frame: index and term say what it is, and what stands before it."""
        if index < len(self.terms):
            if self.terms[index] == term and self.texts[index] != hash(text) & WORD:
                self.wrong(f"two commands at index {index} in term {term}")
            return
        here = self.entries.setdefault(index, {})
        if here.setdefault(term, (text, before)) != (text, before):
            self.wrong(f"two logs with an entry of term {term} at index {index}")

    def committed(self, index, term):
        """The entry at this index in this term is committed, and so is all before it: that is
        looked up in what the frames carried, and applied."""
        if index < len(self.terms):
            if self.terms[index] != term:
                self.wrong(f"index {index} is settled in term {term}, and in {self.terms[index]}")
            return
        found, at, of = [], index, term
        while at >= len(self.terms):
            entry = self.entries.get(at, {}).get(of)
            if entry is None:
                self.wrong(f"no frame carried the entry of term {of} at index {at}, which counts")
                return
            found.append((of, entry[0]))
            at, of = at - 1, entry[1]
        if of != self.terms[at] and at != self.base:
            self.wrong(f"index {index} follows term {of} at {at}, and {self.terms[at]} is settled")
            return
        for of, text in reversed(found):
            self.apply(of, text)

    def apply(self, term, text):
        index = len(self.terms)
        self.entries.pop(index, None)
        total = self.changed(index, text) & WORD
        self.terms.append(term)
        self.texts.append(hash(text) & WORD)
        self.sums.append(total)
        if not self.is_own(text) and self.base == 0:
            self.is_proposed(index, text)
        told = self.states.pop(index, None)
        if told is not None and told[0] != total:
            self.wrong(f"server {told[1]} had another state at index {index} than the list")
        if self.lost.pop(index, None) == term:
            self.wrong(f"the command of term {term} at index {index} was lost, and is in the list")

    def is_proposed(self, index, text):
        """Each command of the list was proposed, and stands there no more often than that."""
        left = self.proposed.get(text, 0)
        if left <= 0:
            self.wrong(f"nobody proposed {text.hex()} at index {index}, or it is there twice")
        elif left == 1:
            del self.proposed[text]
        else:
            self.proposed[text] = left - 1

    def state(self, me, index, told):
        """A server has the state that this number tells, behind so many commands."""
        told &= WORD
        if index < self.base:
            return
        if index < len(self.sums):
            if self.sums[index] != told:
                self.wrong(f"server {me} has another state at index {index} than the list")
        elif self.states.setdefault(index, (told, me))[0] != told:
            self.wrong(f"servers {self.states[index][1]} and {me} differ at index {index}")

    # -- what clients do

    def proposes(self, text):
        self.count["proposals"] += 1
        self.proposed[text] = self.proposed.get(text, 0) + 1

    def declined(self, text):
        """A proposal was refused: it is nowhere."""
        self.count["refused"] += 1
        self.withdrawn(text)

    def withdrawn(self, text):
        """A proposal is not in the list, and never will be."""
        self.proposed[text] = self.proposed.get(text, 0) - 1

    def ticket(self, text, index, term):
        self.count["tickets"] += 1
        if self.tickets.setdefault((index, term), text) != text:
            self.wrong(f"two tickets of index {index} and term {term}")

    def resolved(self, index, term, word):
        """What became of a ticket."""
        self.count[word] += 1
        text = self.tickets.pop((index, term))
        if word in ("settled", "committed"):
            self.committed(index, term)
            if index < len(self.texts) and self.texts[index] != hash(text) & WORD:
                self.wrong(f"another command than was proposed is settled at index {index}")
        elif word == "lost":
            self.withdrawn(text)
            if index < len(self.terms):
                if self.terms[index] == term:
                    self.wrong(f"the command at {index} in term {term} is lost, and settled")
            else:
                self.lost[index] = term
