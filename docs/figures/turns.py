"""The order of turns in time: the row `one_time` of `lot_simulation`, with two processors and one thread."""

import pencil
from sources import function, quoted_lines

ROW = "lot_simulation/src/timed_rows.rt", "one_time"
LEFT, SCALE = 120, 21.5
LANES = {0: 46, 1: 96, 2: 146}
NAMES = {0: "console", 1: "processor 1", 2: "processor 2"}


def lines():
    """The lines of the input, and of the output that the row says it has."""
    given, printed = function(*ROW).split("≡")
    return quoted_lines(given), quoted_lines(printed)


def turns(printed):
    """Each turn's time, actor and text, in order."""
    split = [text.split(" ", 2) for text in printed[:printed.index("report")]]
    return [(int(time), int(actor), text) for time, actor, text in split]


def x_of(time):
    """Where a time is."""
    return LEFT + time * SCALE


def length_of(text):
    """The ticks of a slice, or None if the turn is a draw or a command."""
    words = text.split()
    return int(words[3]) if words[0] == "thread" else None


def compare_order(made):
    """Stops if a turn isn't the earliest of those due, at one time the one of the lowest actor. After an idle draw a
    processor waits for another turn."""
    waiting = set()
    for place, turn in enumerate(made):
        later = {actor: [other for other in made[place:] if other[1] == actor] for actor in LANES}
        due = [turns[0][:2] for actor, turns in later.items() if turns and actor not in waiting]
        assert min(due) == turn[:2], turn
        waiting = waiting | {turn[1]} if turn[2] == "idle" else set()


def compare_clocks(made, end):
    """Stops if a slice's ticks don't add up to its processor's clock."""
    clocks = {actor: 0 for actor in LANES}
    for time, actor, text in made:
        ticks = length_of(text)
        assert ticks is None or clocks[actor] + ticks == time <= end, text
        clocks[actor] = time


def slices(made):
    """A bar for each slice, which ends at its turn's time."""
    return [part for time, actor, text in made if length_of(text)
            for part in bar(time - length_of(text), time, actor, f"thread {text.split()[1]}, {length_of(text)} ticks")]


def bar(begin, end, actor, words):
    """A slice that a thread ran."""
    y = LANES[actor]
    short = words.split(", ")[1] if end - begin < 6 else words
    return [pencil.box(x_of(begin), y - 12, (end - begin) * SCALE, 24, pencil.LIVE),
            pencil.text(x_of((begin + end) / 2), y + 26 if end - begin < 6 else y + 4, short)]


def waits(made, end):
    """A dashed line from each idle draw to the processor's next draw."""
    parts = []
    for place, (time, actor, text) in enumerate(made):
        if text == "idle":
            later = [other[0] for other in made[place + 1:] if other[1] == actor]
            until = later[0] if later else end
            if until > time:
                parts.append(pencil.line([(x_of(time), LANES[actor]), (x_of(until), LANES[actor])], dashed=True))
                parts.append(pencil.text(x_of((time + until) / 2 + 0.3), LANES[actor] - 6, "waits"))
    return parts


def marks(made):
    """A disc with the number of each turn; two of one actor at one time stand side by side."""
    parts, seen = [], {}
    for number, (time, actor, text) in enumerate(made, 1):
        together = [turn for turn in made if turn[:2] == (time, actor)]
        place = seen.get((time, actor), 0)
        seen[(time, actor)] = place + 1
        shift = 0 if len(together) == 1 else (place - (len(together) - 1) / 2) * 20
        parts.append(pencil.disc(x_of(time) + shift, LANES[actor], 9, str(number), pencil.PICKED))
    return parts


def axis(made, end):
    """The times at which something happens, under the lanes."""
    parts = []
    for time in sorted({turn[0] for turn in made} | {end}):
        parts += [pencil.line([(x_of(time), 26), (x_of(time), 184)], colour="#cccccc"),
                  pencil.text(x_of(time), 198, str(time))]
    parts += [pencil.text(LEFT - 30, y + 4, NAMES[actor], "end", bold=True) for actor, y in LANES.items()]
    return parts + [pencil.text(LEFT - 30, 198, "tick", "end", bold=True)]


def listing(made):
    """The turns as the program prints them, by number."""
    rows = (len(made) + 1) // 2
    parts = []
    for number, (time, actor, text) in enumerate(made, 1):
        x, y = (40 if number <= rows else 370), 232 + 24 * ((number - 1) % rows)
        parts += [pencil.disc(x, y - 4, 9, str(number), pencil.PICKED),
                  pencil.text(x + 18, y, f"{time} {actor} {text}", "start")]
    return parts


def figure():
    """Three lanes over one axis of time, and the turns under it."""
    given, printed = lines()
    made = turns(printed)
    end = int(next(text for text in given if text.startswith("for ")).split()[1])
    compare_order(made)
    compare_clocks(made, end)
    parts = axis(made, end) + slices(made) + waits(made, end) + marks(made) + listing(made)
    return pencil.picture(242 + 24 * ((len(made) + 1) // 2 - 1), "The order of turns in time", parts)
