"""Draws what rafttrace prints: as a page that shows a run step by step, or as one picture."""

from .drawing import draw_run
from .page import page
from .trace import read_trace

# more would make a page that browsers are slow with
MOST_EVENTS = 2000


class TooLong(Exception):
    """A run that has too many events for a picture."""


def draw(text, name, is_page):
    """The page (HTML) or the picture (SVG) of a trace; `name` is the schedule's file."""
    run = read_trace(text)
    if len(run.events) > MOST_EVENTS:
        raise TooLong(f"a picture shows at most {MOST_EVENTS} events, and {name} has {len(run.events)}")
    return page(run, name) if is_page else draw_run(run)
