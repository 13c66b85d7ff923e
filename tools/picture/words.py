"""Says in words what a trace says."""

import re
from pathlib import Path

ERRORS = Path(__file__).resolve().parent.parent.parent / "crates/raft_error/src/error.rt"
LINES = [
    (r"node (\d+): (\w+) -> (\w+)", r"node \1 becomes \3 (it was \2)"),
    (r"append (\S+) (.*)", r"it appends \1: \2"),
    (r"save vote <(\d+)-(\d+):->", r"it saves its vote, for node \2 in term \1"),
    (r"save vote <(\d+)-(\d+):Q>", r"it saves that a quorum has granted the vote of node \2 in term \1"),
    (r"send (\d+): \d+ -> (\d+) (.*)", r"it sends node \2 message \1: \3"),
    (r"open streams to (.*)", r"it opens replication streams to \1"),
    (r"open no streams", r"it has nobody to replicate to"),
    (r"become leader", r"it begins to lead"),
    (r"quit leader", r"it leads no more"),
    (r"replicate committed (.*)", r"\1 is committed now: it tells the others"),
    (r"commit up to (.*)", r"it commits up to \1"),
    (r"apply (\S+) (.*)", r"it applies \1: \2"),
    (r"delete from (.*)", r"it deletes its log from \1 on"),
    (r"purge up to (.*)", r"it purges its log up to \1"),
    (r"build snapshot", r"it begins to build a snapshot of what it has applied"),
    (r"get snapshot", r"it reads its snapshot"),
    (r"begin receiving snapshot", r"it begins to receive a snapshot"),
    (r"install snapshot up to (.*)", r"it installs the snapshot up to \1"),
    (r"read waits for (.*)", r"the read is answered once \1 is applied"),
    (r"skipped: (.*)", r"nothing happens: \1"),
    (r"stopped", r"the node stops: it keeps what it has stored"),
]
STARTS = {
    "": "",
    "saved": ", and on what it has saved as committed",
    "bare": ", but for what it has saved as committed, and doesn't lead on",
}
EVENTS = {
    "init": "Node {0} is given the first entry and asks for votes",
    "timeout": "Node {0} has heard no leader for long and asks for votes",
    "stand": "Node {0} stands for election and asks for votes",
    "heartbeat": "Node {0}'s heartbeat is due",
    "fail": "Node {0} is told that what is in flight to node {1} failed",
    "snapshot": "Node {0} is told to build a snapshot",
    "built": "Node {0}'s snapshot is finished",
    "purge": "Node {0} is told to purge its log up to index {1}",
    "read": "Node {0} is asked up to where a read has to see the log",
    "down": "Node {0} is to step down if it is a member no more",
    "stop": "Node {0} is to stop",
}


def sentence(line):
    """A line below an event, in words."""
    refused = re.match(r"refused: (\d+)", line)
    if refused:
        return f"the call is refused: {refusals().get(refused[1], 'refusal')} ({refused[1]})"
    found = (re.sub(pattern, text, line) for pattern, text in LINES if re.fullmatch(pattern, line))
    return next(found, line)


def outcome(line):
    """How an event ended, for where there is little room."""
    refused = re.match(r"refused: (\d+)", line)
    if refused:
        return f"refused ({refused[1]}): {refusals().get(refused[1], '').partition(':')[0]}"
    return "the node stops" if line == "stopped" else line


def refusals():
    """The engine's refusals by their numbers, as its source has them."""
    found = re.findall(r"/// (\d+): .*?#\[error\(\"(.*?)\"\)\]", ERRORS.read_text(encoding="utf-8"), re.S)
    return dict(found)


def own_words(event):
    """An event's words, but for its node, its moment and its stop."""
    words = event.words[2:]
    for it in ("at", "stop"):
        words = words[: words.index(it)] if it in words else words
    return words


def membership(event):
    """The membership that a change proposes, as the trace writes memberships."""
    words = own_words(event)
    groups = words[: words.index("learners")] if "learners" in words else words
    learners = words[len(groups) + 1 :]
    text = " ".join(f"{{{' '.join(it.split(','))}}}" for it in groups)
    return text + (f" learners {{{' '.join(learners)}}}" if learners else "")


def headline(event):
    """What an event is, as a sentence."""
    node, words = event.words[1], own_words(event)
    if event.kind == "deliver":
        text = delivery(event)
    elif event.kind == "restart":
        text = f"Node {node} starts on what it has stored" + STARTS["".join(words)]
    elif event.kind == "propose":
        text = f"Node {node} is given the value{'s' if len(words) > 1 else ''} {', '.join(words)}"
    elif event.kind == "change":
        text = f"Node {node} is to change the membership to {membership(event)}"
    elif event.kind == "member":
        text = f"Node {node} is to have the learners {' '.join(words)}" if words else f"Node {node} is to have no learners"
    else:
        text = EVENTS[event.kind].format(node, *words)
    moment = re.search(r" at (\d+)", " ".join(event.words))
    stop = re.search(r" stop (\d+)", " ".join(event.words))
    text += f", at {moment[1]} ms" if moment else ""
    return text + (f"; it stops after {count(int(stop[1]), 'command')}" if stop else "") + "."


def delivery(event):
    message = event.message
    if not message:
        return f"Message {event.words[1]} was never sent"
    again = " once more" if message.delivered.index(event.number) else ""
    return f"Message {message.number} of node {message.sender} reaches node {message.target}{again}: {message.text}"


def count(number, word):
    return f"{number} {word}{'' if number == 1 else 's'}"


def short_entries(text):
    """The ids of an append's entries, the middle ones left out."""
    ids = text.split(" ")
    return text if len(ids) <= 3 else f"{ids[0]} .. {ids[-1]}"


def short(text):
    """A message's text for where there is little room."""
    text = re.sub(r" <[^>]*>(?!$)", "", text).replace(", committed None", "").replace("append reply: ", "")
    text = re.sub(r"entries (.*?)(?=,|$)", lambda it: short_entries(it[1]), re.sub(r"previous \S+, ", "", text))
    return text.replace(", committed", ", commit").replace(", last None", "").replace("append none", "append nothing").replace("append, ", "append ")


def label(event):
    """An event for where there is little room."""
    words = own_words(event)
    if event.kind == "deliver":
        return f"{event.message.number} {short(event.message.text)}"
    if event.kind == "change":
        return f"change to {membership(event)}"
    if event.kind == "fail":
        return f"request to {words[0]} fails"
    return " ".join([event.kind, *words])


def kind(message):
    """Of which kind a message is."""
    word = message.text.split(" ")[0]
    return {"vote": "vote", "append": "append", "heartbeat": "heartbeat", "snapshot": "snapshot"}[word]


def vote(text):
    """A vote in words."""
    term, node, is_quorum = re.fullmatch(r"<(\d+)-(\d+):(.)>", text).groups()
    if term == "0":
        return "none"
    return f"node {node}, term {term}" + (", by a quorum" if is_quorum == "Q" else "")
