"""A lottery as a line: the paper's list lottery, with the number that a worked row of `lot_machine` draws."""

from itertools import accumulate

import pencil
from sources import clause, definition, events

CELL, LEFT, TOP = 32, 30, 92
ROWS, RUNS = "lot_machine/src/worked/lotteries.rt", "lot_machine/specs/WorkedRuns.antt"


def clients():
    """Each thread's name and weight. It has one ticket of base, and no compensation."""
    return [(name, int(amount)) for word, amount, _, name in events(definition(RUNS, "list_lottery"))]


def row(label):
    """The number given to the draw, and what the reply says: the winner, the number modulo the total, the total."""
    given, replied = clause(ROWS, "list_lottery", label).split("≡")
    number = int(given.split("Draw 1 ")[1].split()[0])
    words = replied.split("reply.Winner ")[1].split()
    return number, tuple(map(int, words[:3]))


def winner(weights, number):
    """The same by rule 14: the first thread whose running sum is greater than the number modulo the sum."""
    total = sum(weights)
    drawn = number % total
    first = next(place for place, ending in enumerate(accumulate(weights), 1) if ending > drawn)
    return first, drawn, total


def segment(name, begin, weight, wins):
    """A thread's numbers, as a part of the line."""
    x, width = LEFT + begin * CELL, weight * CELL
    fill = pencil.PICKED if wins else pencil.INACTIVE
    return [pencil.box(x, TOP, width, 40, fill),
            pencil.text(x + width / 2, TOP + 18, name, bold=True),
            pencil.text(x + width / 2, TOP + 33, str(weight))]


def cells(total):
    """A mark at each number, so that a weight can be counted."""
    return [pencil.line([(LEFT + n * CELL, TOP + 40), (LEFT + n * CELL, TOP + 45)]) for n in range(total + 1)]


def sums(weights):
    """The running sums, each where its thread's numbers end."""
    marks = [pencil.text(LEFT + ending * CELL, TOP + 60, str(ending)) for ending in accumulate(weights)]
    return [pencil.text(LEFT, TOP + 60, "0"), *marks,
            pencil.text(LEFT, TOP + 82, "running sums, by rising number of the thread", anchor="start",
                        colour=pencil.FAINT)]


def pointer(given, drawn, total, ending, name):
    """The number, above the line."""
    x = LEFT + (drawn + 0.5) * CELL
    return [pencil.text(x, 32, f"the number given is {given}: {given} modulo {total} is {drawn}"),
            pencil.text(x, 50, f"{ending} is the first running sum greater than {drawn}, so {name} wins"),
            pencil.arrow((x, 58), (x, TOP + 1))]


def figure():
    """The row `thirty_five`, whose number is above the total."""
    names, weights = zip(*clients())
    given, replied = row("thirty_five")
    assert winner(weights, given) == replied, "the row and the rule name different winners"
    place, drawn, total = replied
    endings = list(accumulate(weights))
    parts = []
    for index, (name, weight) in enumerate(zip(names, weights), 1):
        parts += segment(name, endings[index - 1] - weight, weight, index == place)
    parts += cells(total) + sums(weights) + pointer(given, drawn, total, endings[place - 1], names[place - 1])
    return pencil.picture(TOP + 98, "A lottery as a line, with the winner", parts)
