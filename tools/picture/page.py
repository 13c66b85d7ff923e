"""Makes the page that shows a run step by step: it needs nothing but a browser."""

import json
import re
from html import escape
from pathlib import Path

from . import drawing, words

TEMPLATE = Path(__file__).resolve().parent / "page.html"
BOXES = 8


def page(run, name):
    """The page of a run, as HTML."""
    # (most nodes are at most steps as at the one before)
    cards, steps = {}, []
    for step, states in enumerate(run.states):
        row = [cards.setdefault(card(node, states[node]), len(cards)) for node in run.nodes]
        steps.append({**told(run, step), "cards": row})
    data = {"cards": list(cards), "steps": steps}
    parts = {
        "TITLE": escape(name),
        "NAME": escape(name).replace("_", "_<wbr>"),
        "STYLE": drawing.STYLE,
        "LANES": "".join('<div class="card"></div>' for _ in run.nodes),
        "GUTTER": str(drawing.GUTTER),
        "LANE": str(drawing.LANE),
        "MARGIN": str(drawing.MARGIN),
        "RUN": drawing.draw_run(run, has_legend=False),
        "LEGEND": drawing.draw_legends(),
        # (in a script, `</` could end it)
        "DATA": json.dumps(data, ensure_ascii=False, separators=(",", ":")).replace("</", "<\\/"),
    }
    text = TEMPLATE.read_text(encoding="utf-8")
    for key, part in parts.items():
        text = text.replace(f"{{{{{key}}}}}", part)
    return text


def told(run, step):
    """A step in words: what the event is, and what its node does."""
    if step == 0:
        return {"head": "No event yet: the nodes run, and have stored nothing.", "lines": []}
    event = run.events[step - 1]
    return {"head": unbroken(words.headline(event)), "lines": [unbroken(capital(words.sentence(line))) for line in event.lines]}


def capital(text):
    return text[:1].upper() + text[1:]


def unbroken(text):
    """A text as HTML, in which no line ends within an id, a vote or a group."""
    return re.sub(r"\S*\d-\d\S*|\{[^}]*\}", r'<span class="whole">\g<0></span>', escape(text, quote=False))


def card(node, state):
    """What a node is and has, as HTML."""
    role = state.role if state.is_running else "stopped"
    colour = drawing.ROLES.get(role, "#8a4a46")
    nothing = "nothing committed" if state.is_running else "nothing saved as committed"
    lines = [
        f'<h2>node {node} <span class="role" style="background:{colour}">{role}</span></h2>',
        f"<p>vote: {escape(words.vote(state.vote))}</p>",
        f'<p class="log">{"".join(map(box, drawing.boxes(state, BOXES))) or "empty log"}</p>',
        f'<p class="marks">{" · ".join(marks(state)) or nothing}</p>',
        f'<p class="marks">{membership(state)}</p>',
    ]
    return "".join(lines)


def marks(state):
    """The log ids that say how far a node has come, as HTML."""
    # a stopped node has only what it has stored
    known = [("committed", state.committed), ("applied", state.applied)] if state.is_running else [("saved as committed", state.saved)]
    known += [("snapshot", state.snapshot), ("purged", state.purged)]
    return [f'<span class="whole"><b>{name}</b> {it}</span>' for name, it in known if it]


def membership(state):
    entry = state.membership
    if not entry:
        return "no membership"
    is_committed = state.committed and entry.id.index <= state.committed.index
    ids = entry.payload.partition(" ")[2]
    return unbroken(f"members {ids} of {entry.id}{'' if is_committed else ', not committed'}").replace("members", "<b>members</b>")


def box(part):
    covered = " covered" if part.is_covered else ""
    return f'<span class="box {part.classes}{covered}" title="{escape(part.whole)}">{escape(part.upper)}<br>{escape(part.lower)}</span>'
