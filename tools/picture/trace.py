"""Reads what rafttrace prints, and follows the state of each node from event to event (docs/SCHEDULES.md says what the lines mean)."""

import re
from dataclasses import dataclass, field, replace
from typing import NamedTuple, Optional

NO_VOTE = "<0-0:->"


class LogId(NamedTuple):
    """A log id. Of one index the greater of two is that of the later leader."""

    term: int
    node: int
    index: int

    def __str__(self):
        return f"{self.term}-{self.node}-{self.index}"


class Entry(NamedTuple):
    """An entry of a log, and what it holds, as the trace says it."""

    id: LogId
    payload: str


@dataclass(frozen=True)
class State:
    """What a node is and has after an event."""

    is_running: bool = True
    role: str = "Learner"
    vote: str = NO_VOTE
    log: tuple = ()
    committed: Optional[LogId] = None
    applied: Optional[LogId] = None
    snapshot: Optional[LogId] = None
    purged: Optional[LogId] = None
    # what it has saved as committed: the last commit that it executed
    saved: Optional[LogId] = None
    # up to where the snapshot reaches that it builds
    building: Optional[LogId] = None
    # the entries with memberships that it knows, also those that it has purged
    memberships: tuple = ()

    @property
    def last(self):
        return self.log[-1].id if self.log else self.purged

    @property
    def membership(self):
        """The effective membership: that of the last entry that has one."""
        return self.memberships[-1] if self.memberships else None

    def starts(self, way):
        """The node's state as it starts on what it has stored: `saved`, `bare`, or in neither way."""
        log, purged = self.log, self.purged
        if self.snapshot and reaches(self.snapshot, self.purged) and self.snapshot not in [it.id for it in log]:
            log, purged = (), self.snapshot
        held = [self.snapshot, self.saved if way == "saved" and self.saved in [it.id for it in log] else None]
        known = latest(*held)
        state = replace(self, is_running=True, role="Learner", log=log, purged=purged, building=None)
        return replace(state, committed=known, applied=known, saved=None if way == "bare" else self.saved)


@dataclass
class Message:
    """A message: who sent it to whom, in which event, and the events that delivered it."""

    number: int
    sender: int
    target: int
    text: str
    sent: int
    # the sender's state then
    state: State
    delivered: list = field(default_factory=list)


@dataclass
class Event:
    """An event: its words in the schedule, its node (none if it delivers no message), and the lines that say what happened."""

    number: int
    words: list
    node: Optional[int] = None
    message: Optional[Message] = None
    sent: list = field(default_factory=list)
    lines: list = field(default_factory=list)

    @property
    def kind(self):
        return self.words[0]

    @property
    def outcome(self):
        """How the event ended, unless it was done: the last line."""
        return self.lines[-1] if self.lines and re.match(r"(refused|skipped): |stopped$", self.lines[-1]) else None

    @property
    def is_skipped(self):
        return (self.outcome or "").startswith("skipped")


@dataclass
class Run:
    """A run: its nodes, messages by number, events, and the nodes' states after each event (at first, before any)."""

    nodes: list
    messages: dict
    events: list
    states: list
    end: list


def parse_id(text):
    """A log id, or None."""
    return None if text == "None" else LogId(*map(int, text.split("-")))


def latest(*ids):
    return max((it for it in ids if it), key=lambda it: it.index, default=None)


def reaches(one, other):
    """Whether a log id lies behind another, or there is no other."""
    return one is not None and (other is None or one.index > other.index)


def read_trace(text):
    """Reads the trace of a run."""
    body, _, end = text.rpartition("\n\n")
    end = end.strip("\n").split("\n")
    nodes = [int(it[1]) for it in (re.match(r"node (\d+): ", line) for line in end) if it]
    run = Run(nodes, {}, [], [{node: State() for node in nodes}], end)
    for block in re.split(r"\n(?=\d)", body):
        if block.strip():
            play(run, block.strip("\n").split("\n"))
    return run


def play(run, lines):
    """Adds an event to a run: its line, and those below it."""
    number, _, line = lines[0].partition(" ")
    event = Event(int(number), line.partition(": ")[0].split(" "), lines=[it.strip() for it in lines[1:]])
    if event.kind == "deliver":
        event.message = run.messages.get(int(event.words[1]))
        event.node = event.message and event.message.target
    else:
        event.node = int(event.words[1])
    if event.message:
        event.message.delivered.append(event.number)
    run.events.append(event)
    states = dict(run.states[-1])
    if event.node in states:
        states[event.node] = after(run, event, states[event.node])
    run.states.append(states)


def after(run, event, state):
    """The state of an event's node after the event; notes the messages that it sent."""
    if event.kind == "restart" and not event.is_skipped:
        state = state.starts(event.words[2] if len(event.words) > 2 else "")
    if event.kind == "built" and not event.is_skipped:
        longer = reaches(state.building, state.snapshot)
        state = replace(state, snapshot=state.building if longer else state.snapshot, building=None)
    for line in event.lines:
        state = after_line(run, event, state, line)
    return state


def after_line(run, event, state, line):
    """The state of an event's node after what this line says."""
    word, _, rest = line.partition(" ")
    if word == "node":
        return replace(state, role=rest.rpartition(" ")[2])
    if word == "append":
        return appended(state, rest)
    if word == "send":
        note_message(run, event, state, rest)
    elif line.startswith("save vote"):
        return replace(state, vote=line.split(" ")[2])
    elif word == "apply":
        return replace(state, applied=parse_id(rest.split(" ")[0]))
    elif line.startswith("commit up to"):
        upto = parse_id(line.split(" ")[3])
        return replace(state, committed=latest(state.committed, upto), saved=latest(state.saved, upto))
    elif line.startswith("delete from"):
        return deleted(state, parse_id(line.split(" ")[2]))
    elif line.startswith("purge up to"):
        upto = parse_id(line.split(" ")[3])
        return replace(state, purged=upto, log=tuple(it for it in state.log if it.id.index > upto.index))
    elif line == "build snapshot":
        return replace(state, building=state.applied)
    elif line.startswith("install snapshot"):
        return installed(state, parse_id(line.split(" ")[4]), event.message.state)
    elif line == "stopped":
        return replace(state, is_running=False, building=None)
    return state


def appended(state, rest):
    id, _, payload = rest.partition(" ")
    entry = Entry(parse_id(id), payload)
    is_membership = payload.startswith("membership")
    return replace(state, log=(*state.log, entry), memberships=(*state.memberships, *[entry] * is_membership))


def deleted(state, since):
    left = tuple(it for it in state.log if it.id.index < since.index)
    return replace(state, log=left, memberships=tuple(it for it in state.memberships if it.id.index < since.index))


def installed(state, upto, sender):
    """The state after a snapshot of the sender up to this id is installed."""
    known = {it.id: it for it in (*sender.memberships, *state.memberships) if it.id.index <= upto.index or it in state.memberships}
    memberships = tuple(sorted(known.values(), key=lambda it: it.id.index))
    return replace(state, snapshot=upto, applied=upto, committed=latest(state.committed, upto), memberships=memberships)


def note_message(run, event, state, rest):
    number, sender, target, text = re.match(r"(\d+): (\d+) -> (\d+) (.*)", rest).groups()
    message = Message(int(number), int(sender), int(target), text, event.number, state)
    run.messages[message.number] = message
    event.sent.append(message)


def end_of(run, node):
    """What the end of a trace says of a node, but for a leader's targets, by the state that was followed."""
    state = run.states[-1][node]
    stored = f"    applied {state.applied}, snapshot {state.snapshot}, purged {state.purged}"
    if not state.is_running:
        return [f"node {node}: stopped", stored]
    held = state.membership
    members = f"{held.id}{held.payload.removeprefix('membership')}" if held else "None"
    return [f"node {node}: {state.role}, vote {state.vote}, last {state.last}, committed {state.committed}", f"    membership {members}", stored]
