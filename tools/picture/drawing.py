"""Draws a run: a lifeline for each node, events from top to bottom, and each message as an arrow from its sending to its delivery."""

from html import escape
from typing import NamedTuple

from . import words

# in pixels: the column of numbers, a node's column and its lifeline's place in that, the heading, and what labels may stand out at the right
GUTTER, LANE, AXIS, HEAD, MARGIN = 44, 280, 34, 46, 40
# in pixels: a line of text, a log, and the distance between two messages that are sent
LINE, STRIP, SENDING = 17, 35, 15
# of a log the last so many boxes are drawn, of this size in pixels, in each text of which there is room for so many letters
BOXES, BOX_WIDTH, BOX_HEIGHT, BOX_LETTERS = 4, 54, 28, 9
# the most letters of a text beside a lifeline
LETTERS = 50
ROLES = {"Learner": "#8b95a1", "Follower": "#2f74c0", "Candidate": "#d98a00", "Leader": "#1d8a4b"}
KINDS = {"vote": "#7b3fa0", "append": "#0b6e8a", "heartbeat": "#6b7480", "snapshot": "#b5481b"}
STOPPED, STOPS = "#b8c0c8", "#b3261e"
# of each sample in the legend: what is drawn, and what it says
LEGEND = [
    *((("life", role), role) for role in ROLES),
    (("arrow", "vote"), "votes"),
    (("arrow", "append"), "entries and replies"),
    (("arrow", "heartbeat"), "heartbeats"),
    (("arrow", "snapshot"), "snapshots and replies"),
    (("box", "entry"), "appended"),
    (("box", "entry committed"), "committed"),
    (("box", "entry applied"), "applied"),
    (("box", "gone"), "purged"),
    (("cover", "snapshot"), "in the snapshot"),
    (("lost", "heartbeat"), "not delivered"),
    (("skipped", "append"), "delivered, skipped"),
    (("stop", ""), "the node stops"),
]
STYLE = """
.run text { font: 12px Helvetica, Arial, "Liberation Sans", sans-serif; fill: #1c2733 }
.run .label { paint-order: stroke; stroke: #fff; stroke-width: 4px; stroke-linejoin: round }
.run.plain .label { stroke: none }
.run .strong { font-weight: 600 }
.run .small { font-size: 11px }
.run .faint { fill: #5b6774 }
.run .bad { fill: #b3261e }
.run .entry { fill: #fff; stroke: #7c8794; stroke-dasharray: 3 2 }
.run .committed { fill: #e4f4e9; stroke: #4b9b6a; stroke-dasharray: none }
.run .applied { fill: #b5e0c4; stroke: #2f7d4f; stroke-dasharray: none }
.run .gone { fill: #e8ebee; stroke: #a5aeb8 }
"""


class Drawing:
    """The elements of a picture so far."""

    def __init__(self):
        self.parts = []

    def add(self, name, content=None, **attributes):
        words = written(attributes)
        self.parts.append(f"<{name}{words}/>" if content is None else f"<{name}{words}>{content}</{name}>")

    def begin(self, **attributes):
        self.parts.append(f"<g{written(attributes)}>")

    def end(self):
        self.parts.append("</g>")

    def text(self, x, y, content, classes="", anchor=None, fill=None):
        style = f"fill:{fill}" if fill else None
        content = content if len(content) <= LETTERS else f"{content[: LETTERS - 2]} .."
        self.add("text", escape(content), x=x, y=y, class_=f"label {classes}".strip(), text_anchor=anchor, style=style)

    def line(self, start, end, colour, width=1.6, dashes=None):
        self.add("line", x1=start[0], y1=start[1], x2=end[0], y2=end[1], stroke=colour, stroke_width=width, stroke_dasharray=dashes)


def written(attributes):
    """Attributes as SVG writes them. (Python has `class` and hyphens for other things.)"""
    words = {key.rstrip("_").replace("_", "-"): escape(str(value)) for key, value in attributes.items() if value is not None}
    return "".join(f' {key}="{value}"' for key, value in words.items())


class Row:
    """An event's row: where it stands, and what is written in it."""

    def __init__(self, run, event, top):
        self.event, self.top = event, top
        before, self.states = run.states[event.number - 1], run.states[event.number]
        self.before, self.state = before.get(event.node), self.states.get(event.node)
        self.notes = notes(event, self.before, self.state)
        self.has_strip = self.state is not None and marks(self.before) != marks(self.state)
        self.dot = top + 17
        # (what comes from the right comes above the text)
        is_from_right = event.message and side_of(run, event.message) < 0
        self.text = self.dot + (17 if is_from_right else 4)
        self.strip = self.text + LINE * len(self.notes) + 6
        self.sending = self.strip + STRIP * self.has_strip + 8
        self.bottom = self.sending + SENDING * len(event.sent) + 4

    def start_of(self, message):
        """How far down a message of this event begins."""
        return self.sending + SENDING * self.event.sent.index(message)


def side_of(run, message):
    """On which side of its sender's lifeline a message leaves: 1 for right, also if its target is none of the nodes."""
    targets = run.nodes[: run.nodes.index(message.sender)]
    return -1 if message.target in targets else 1


def marks(state):
    return state and (state.log, state.committed, state.applied, state.snapshot, state.purged)


def notes(event, before, state):
    """What is written beside an event: texts, each with its class."""
    if event.node is None:
        return [(f"message {event.words[1]} was never sent", "faint")]
    if state is None:
        return [("there is no such node", "faint")]
    found = [(text, "strong") for text in role_notes(event, before, state)]
    if before.vote != state.vote:
        found.append((f"vote: {words.vote(state.vote)}", ""))
    for line in event.lines:
        if line.startswith(("build", "read waits", "install", "delete from")):
            found.append((line, "bad" if line.startswith("delete") else ""))
    if event.outcome:
        found.append((words.outcome(event.outcome), "faint" if event.is_skipped else "bad strong"))
    return found


def role_notes(event, before, state):
    if event.kind == "restart" and not event.is_skipped:
        return [f"starts as {state.role}"]
    return [f"{before.role} → {state.role}"] if before.role != state.role else []


def rows_of(run):
    rows, top = [], HEAD
    for event in run.events:
        rows.append(Row(run, event, top))
        top = rows[-1].bottom
    return rows


def width_of(run):
    return GUTTER + LANE * len(run.nodes) + MARGIN


def axis(run, node):
    """How far to the right a node's lifeline stands."""
    return GUTTER + run.nodes.index(node) * LANE + AXIS


def draw_base(drawing, run, row):
    """The row's ground and number, and its part of each lifeline."""
    number = row.event.number
    drawing.begin(class_="step", data_step=number)
    fill = "#f6f8fa" if number % 2 else "#ffffff"
    drawing.add("rect", x=0, y=row.top, width=width_of(run), height=row.bottom - row.top, fill=fill, class_="ground")
    drawing.text(GUTTER - 12, row.dot + 4, str(number), "strong", "end")
    for node in run.nodes:
        draw_life(drawing, run, row, node)
    drawing.end()


def draw_life(drawing, run, row, node):
    """A row's part of a node's lifeline: as before up to the event, and as it is then."""
    x, before, now = axis(run, node), run.states[row.event.number - 1][node], row.states[node]
    if row.event.node != node:
        draw_part(drawing, x, row.top, row.bottom, now)
        return
    draw_part(drawing, x, row.top, row.dot, before)
    if row.event.outcome == "stopped":
        drawing.line((x, row.dot), (x, row.bottom - 8), ROLES[now.role], 6)
    else:
        draw_part(drawing, x, row.dot, row.bottom, now)


def draw_part(drawing, x, top, bottom, state):
    if state.is_running:
        drawing.line((x, top), (x, bottom), ROLES[state.role], 6)
    else:
        drawing.line((x, top), (x, bottom), STOPPED, 1.5, "2 4")


def draw_event(drawing, run, row):
    """What is written and marked at an event."""
    event = row.event
    drawing.begin(class_="step", data_step=event.number)
    if row.state is None:
        drawing.text(GUTTER + AXIS + 15, row.dot + 4, f"{' '.join(event.words)}: {row.notes[0][0]}", "faint")
        drawing.end()
        return
    x = axis(run, event.node)
    colour = ROLES[row.state.role] if row.state.is_running or event.outcome == "stopped" else STOPPED
    drawing.add("circle", cx=x, cy=row.dot, r=6.5, fill=colour, stroke="#fff", stroke_width=2)
    fill = KINDS[words.kind(event.message)] if event.message else None
    drawing.text(x + 15, row.text, words.label(event), "strong", fill=fill)
    for place, (text, classes) in enumerate(row.notes, 1):
        drawing.text(x + 15, row.text + LINE * place, text, classes)
    if row.has_strip:
        draw_strip(drawing, row.state, x + 15, row.strip)
    if event.outcome == "stopped":
        draw_cross(drawing, x, row.bottom - 6, STOPS, 6, 3)
    drawing.end()


def draw_cross(drawing, x, y, colour, size, width):
    drawing.line((x - size, y - size), (x + size, y + size), colour, width)
    drawing.line((x - size, y + size), (x + size, y - size), colour, width)


class Box(NamedTuple):
    """A part of a log: how it is drawn, its two texts, whether the snapshot has it, and all that it holds."""

    classes: str
    upper: str
    lower: str
    is_covered: bool
    whole: str


def boxes(state, most):
    """A log as boxes: what is purged, and the last entries."""
    found = []
    if state.purged or state.snapshot and not state.log:
        upto, name = state.purged or state.snapshot, "snapshot" if state.snapshot else "purged"
        found.append(Box("gone", f"≤ {upto}", name, state.snapshot is not None, f"{name} up to {upto}"))
    shown = state.log[-(most - len(found)) :]
    if len(shown) < len(state.log):
        shown = shown[1:]
        left = f"{len(state.log) - len(shown)} more"
        found.append(Box("gone", "..", left, False, f"{left} entries"))
    return [*found, *(box_of(state, entry) for entry in shown)]


def box_of(state, entry):
    is_covered = state.snapshot is not None and entry.id.index <= state.snapshot.index
    id = str(entry.id) if len(str(entry.id)) <= BOX_LETTERS else f"..{str(entry.id)[2 - BOX_LETTERS :]}"
    return Box(status(state, entry), id, content(entry), is_covered, f"{entry.id} {entry.payload}")


def status(state, entry):
    """Of which class an entry's box is: applied, committed, or only appended."""
    if state.applied and entry.id.index <= state.applied.index:
        return "entry applied"
    return "entry committed" if state.committed and entry.id.index <= state.committed.index else "entry"


def content(entry):
    """What an entry holds, in so few letters that they fit into a box."""
    word, _, rest = entry.payload.partition(" ")
    if word == "membership":
        rest = rest if len(rest) <= BOX_LETTERS else rest.replace("} {", " | ").strip("{}")
        return rest if len(rest) <= BOX_LETTERS else "members"
    text = rest if word == "value" else word
    return text if len(text) <= BOX_LETTERS else f"{text[: BOX_LETTERS - 2]}.."


def draw_strip(drawing, state, x, y):
    """A node's log."""
    found = boxes(state, BOXES)
    if not found:
        drawing.text(x, y + 16, "empty log", "small faint")
    for place, box in enumerate(found):
        draw_box(drawing, box, x + place * (BOX_WIDTH + 3), y)


def draw_box(drawing, box, x, y):
    drawing.begin()
    drawing.add("title", escape(box.whole))
    drawing.add("rect", x=x, y=y, width=BOX_WIDTH, height=BOX_HEIGHT, rx=3, class_=box.classes)
    if box.is_covered:
        drawing.add("rect", x=x, y=y + BOX_HEIGHT - 3, width=BOX_WIDTH, height=3, fill=KINDS["snapshot"])
    for text, down in ((box.upper, 12), (box.lower, 23)):
        drawing.add("text", escape(text), x=x + BOX_WIDTH // 2, y=y + down, class_="small", text_anchor="middle")
    drawing.end()


def draw_message(drawing, run, rows, message):
    """A message: an arrow to each of its deliveries; without any, a line that ends in nothing."""
    side = side_of(run, message)
    start = (axis(run, message.sender) + 3 * side, rows[message.sent - 1].start_of(message))
    delivered = message.delivered if message.target in run.nodes else []
    for event in delivered:
        drawing.begin(class_="message", data_sent=message.sent, data_delivered=event)
        draw_delivered(drawing, message, start, (axis(run, message.target) - 9 * side, rows[event - 1].dot), run.events[event - 1].is_skipped)
        drawing.end()
    if not delivered:
        drawing.begin(class_="message", data_sent=message.sent)
        draw_lost(drawing, message, start, side)
        drawing.end()


def draw_delivered(drawing, message, start, end, is_skipped):
    colour, is_to_right = KINDS[words.kind(message)], end[0] > start[0]
    drawing.add("title", escape(f"{message.number}: {message.sender} -> {message.target} {message.text}"))
    draw_arrow(drawing, start, end, colour, "5 4" if is_skipped else None)
    number = (start[0] + (8 if is_to_right else -8), start[1] - 2)
    drawing.text(*number, str(message.number), "small", "start" if is_to_right else "end", colour)


def draw_lost(drawing, message, start, side):
    colour, end = KINDS[words.kind(message)], (start[0] + 30 * side, start[1] + 4)
    drawing.add("title", escape(f"{message.number}: {message.sender} -> {message.target} {message.text}: not delivered"))
    drawing.line(start, end, colour, dashes="4 3")
    draw_cross(drawing, end[0] + 5 * side, end[1] + 1, colour, 3, 1.4)
    text = f"{message.number} to {message.target}: {words.short(message.text)}"
    drawing.text(end[0] + 14 * side, end[1] + 4, text, "small", "start" if side > 0 else "end", colour)


def draw_arrow(drawing, start, end, colour, dashes=None):
    wide, high = end[0] - start[0], end[1] - start[1]
    length = (wide * wide + high * high) ** 0.5
    along, across = (wide / length, high / length), (-high / length, wide / length)
    base = [end[i] - 9 * along[i] for i in (0, 1)]
    drawing.line(start, [round(it, 1) for it in base], colour, dashes=dashes)
    corners = [end, [base[i] + 4 * across[i] for i in (0, 1)], [base[i] - 4 * across[i] for i in (0, 1)]]
    drawing.add("polygon", points=" ".join(f"{x:.1f},{y:.1f}" for x, y in corners), fill=colour)


def draw_head(drawing, run):
    for node in run.nodes:
        drawing.text(axis(run, node) - 10, 20, f"node {node}", "strong")
        drawing.line((axis(run, node), 28), (axis(run, node), HEAD), ROLES["Learner"], 6)


def draw_sample(drawing, sort, name, x, y):
    """A sample for the legend, 26 pixels wide."""
    if sort == "life":
        drawing.line((x, y), (x + 24, y), ROLES[name], 6)
    elif sort in ("arrow", "skipped"):
        draw_arrow(drawing, (x, y), (x + 26, y), KINDS[name], "5 4" if sort == "skipped" else None)
    elif sort == "box":
        drawing.add("rect", x=x, y=y - 8, width=24, height=15, rx=3, class_=name)
    elif sort == "cover":
        drawing.add("rect", x=x, y=y - 1, width=24, height=3, fill=KINDS[name])
    elif sort == "lost":
        drawing.line((x, y), (x + 16, y), KINDS[name], dashes="4 3")
        draw_cross(drawing, x + 21, y, KINDS[name], 3, 1.4)
    else:
        draw_cross(drawing, x + 12, y, STOPS, 5, 3)


def draw_legend(drawing, x, y, columns, width):
    """The legend, in so many columns of this width."""
    for place, ((sort, name), text) in enumerate(LEGEND):
        left, down = x + place % columns * width, y + place // columns * 21
        draw_sample(drawing, sort, name, left, down)
        drawing.text(left + 33, down + 4, text, "small")


def draw_legends():
    """The legend alone, as an SVG."""
    drawing = Drawing()
    draw_legend(drawing, 2, 10, 2, 158)
    return f'<svg xmlns="http://www.w3.org/2000/svg" class="run plain" width="320" height="176">{"".join(drawing.parts)}</svg>'


def draw_run(run, has_legend=True):
    """The whole run, as an SVG."""
    drawing, rows = Drawing(), rows_of(run)
    width, bottom = width_of(run), rows[-1].bottom if rows else HEAD
    columns = max(1, (width - 24) // 160)
    height = bottom + (24 + 21 * -(-len(LEGEND) // columns) if has_legend else 12)
    drawing.add("rect", width=width, height=height, fill="#ffffff")
    draw_head(drawing, run)
    for row in rows:
        draw_base(drawing, run, row)
    for message in run.messages.values():
        draw_message(drawing, run, rows, message)
    for row in rows:
        draw_event(drawing, run, row)
    if has_legend:
        draw_legend(drawing, 16, bottom + 22, columns, 160)
    size = f'width="{width}" height="{height}" viewBox="0 0 {width} {height}"'
    return f'<svg xmlns="http://www.w3.org/2000/svg" class="run" {size}>\n<style>{STYLE}</style>\n' + "\n".join(drawing.parts) + "\n</svg>\n"
