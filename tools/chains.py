"""What the proofs of crates cost, and the longest chain of crates above each: by that crates are proved in an order that wastes no processor."""

from pathlib import Path

TOP = Path(__file__).resolve().parent.parent


def cost_of(name):
    """What a crate's proof costs, in lines of code; of specifications and proofs, 40 lines cost what one of code does."""
    lines = lambda kind: sum(it.read_bytes().count(b"\n") for it in (TOP / "crates" / name).rglob(kind) if "out" not in it.parts)
    return lines("*.rt") + lines("*.antt") // 40


def longest_chains(costs, below):
    """What the longest chain from each one up costs, itself included, by what each costs and what it waits for, given from the ground up."""
    found = {}
    for name in reversed(costs):
        found[name] = costs[name] + max((found[it] for it in found if name in below[it]), default=0)
    return found
