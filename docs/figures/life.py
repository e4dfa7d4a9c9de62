"""A thread's life as a state machine. Its arrows are the rows of the table `A thread's life` of MACHINE.md."""

import re

import pencil
from sources import MACHINE_TEXT

RUNNING, MIDDLE, READY = (14, 96), (296, 100), (590, 96)
BLOCKED = {"Asleep": 118, "Receiving": 170, "Queued": 222, "Served": 292, "Waiting": 344}
LEAVES = {"Asleep": ["sleep"], "Receiving": ["receive or serve", "without a waiting call"],
          "Queued": ["call, and no thread receives"], "Served": ["call to a thread", "that receives"],
          "Waiting": ["lock of a taken mutex"]}
RETURNS = {"Asleep": ["wake"], "Receiving": ["a call at its port"],
           "Served": ["reply or serve of its server,", "or its kill"],
           "Waiting": ["unlock that passes it the", "mutex, or kill of its owner"]}
LENDERS = ("Served", "Waiting")


def table():
    """The pairs of states in the table of MACHINE.md."""
    rows = MACHINE_TEXT.read_text().split("| From | To | By |\n|---|---|---|\n")[1].split("\n\n")[0].splitlines()
    pairs = set()
    for row in rows:
        before, after = (cell.strip() for cell in row.split("|")[1:3])
        pairs |= {(before, one.strip()) for one in after.split(",")}
    return pairs


def arrows():
    """The pairs that the figure draws."""
    drawn = {("", "Ready"), ("Ready", "Running"), ("Running", "Ready"), ("Queued", "Served"), ("Running", "Dead"),
             ("any but Dead", "Dead"), ("Dead", "removed")}
    return drawn | {("Running", name) for name in LEAVES} | {(name, "Ready") for name in RETURNS}


def state(name, place, y, height, fill, dashed=False):
    """A state's box with its name."""
    x, width = place
    words = pencil.text(x + width / 2, y + height / 2 + 4, name, bold=True)
    return [pencil.box(x, y, width, height, fill, dashed), words]


def labelled(begin, end, y, words, above=True):
    """A level arrow with one line of words above it, and one below it if there are two."""
    middle = (begin + end) / 2
    parts = [pencil.arrow((begin, y), (end, y)), pencil.text(middle, y - 5, words[0])]
    return parts + [pencil.text(middle, y + 14, second) for second in words[1:]]


def blocked(name, y):
    """A state in the middle, with the arrow into it and the one out of it."""
    left, right = MIDDLE[0], sum(MIDDLE)
    parts = state(name, MIDDLE, y, 30, pencil.LENT if name in LENDERS else pencil.INACTIVE)
    parts += labelled(sum(RUNNING), left, y + 15, LEAVES[name])
    return parts + (labelled(right, READY[0], y + 15, RETURNS[name]) if name in RETURNS else [])


def quantum():
    """The arrows between Ready and Running, which need no state between them."""
    left, right = sum(RUNNING), READY[0]
    return (labelled(right, left, 42, ["a draw that it wins"])
            + labelled(left, right, 80, ["end of quantum (expiry, overrun, trap that uses it up), preemption,",
                                         "yield, unlock that passes the mutex on"]))


def end():
    """The last states."""
    left, right = MIDDLE[0], sum(MIDDLE)
    x = MIDDLE[0] + MIDDLE[1] / 2
    kill = [pencil.arrow((x, 448), (x, 426)), pencil.text(x + 8, 442, "kill, in any other state", "start")]
    return (state("Dead", MIDDLE, 396, 30, pencil.INACTIVE) + labelled(sum(RUNNING), left, 411, ["exit"]) + kill
            + state("removed", READY, 396, 30, "#ffffff", dashed=True) + labelled(right, READY[0], 411, ["rmthr"]))


def legend():
    """What the colours mean."""
    parts = []
    for x, fill, words in ((14, pencil.LIVE, "live"), (84, pencil.LENT, "lends to its server or to the mutex's owner"),
                           (390, pencil.INACTIVE, "lends to nobody: its tickets are inactive")):
        parts += [pencil.box(x, 462, 16, 12, fill), pencil.text(x + 22, 472, words, "start")]
    return parts


def figure():
    """Running on the left, Ready on the right, and what lies between."""
    assert arrows() == table(), arrows() ^ table()
    parts = state("Running", RUNNING, 28, 398, pencil.LIVE) + state("Ready", READY, 28, 350, pencil.LIVE)
    parts += [pencil.arrow((638, 8), (638, 28)), pencil.text(630, 18, "mkthr, fundx", "end")] + quantum()
    for name, y in BLOCKED.items():
        parts += blocked(name, y)
    x = MIDDLE[0] + MIDDLE[1] / 2
    queued = [pencil.arrow((x, 252), (x, 292)), pencil.text(x + 8, 270, "receive or serve takes the call", "start")]
    return pencil.picture(486, "A thread's life", parts + queued + end() + legend())
