"""numbers.py and events.py of bindings/python/lot."""

from keyword import iskeyword
from textwrap import wrap

from .table import MADE, SORTS, doc_of, ends_of, noted, numbered_field, upper

LABELS = {"draw?": "number, total", "reason": "refusal"}
# The replies whose fields have types.
REPLIES = ("Currency", "Expired", "Funded", "Thread", "Ticket", "Trapped")
CHECK = "check: Optional[bool] = None"


def field(parameter):
    """The field of `Event`."""
    return {"currency#": "currency_number", "thread": "name"}.get(parameter.name + parameter.mark, parameter.name)


def numbers(rows):
    """numbers.py."""
    classes = {}
    for sort, its in SORTS.items():
        text = classes.get(its.python) or f'\n\nclass {its.python}(Number):\n    """{its.doc}"""\n\n'
        for row in rows[sort]:
            line = f"    {row.upper} = {row.number}"
            text += f"{line}\n" if sort == "event_number" else noted(line, row, "#", LABELS)
        classes[its.python] = text
    kinds = {f"EventKind.{row.upper}": row.parameters for row in rows["event_number"]}
    reads = "".join(f"    {kind}: {tuple(map(field, its))!r},\n".replace("'", '"') for kind, its in kinds.items())
    nameless = ", ".join(kind for kind, its in kinds.items() if any(it.mark == "?" for it in its))
    return f'''"""The numbers of the kernel, by name. They are those of lot.h, in every language.

{MADE}

>>> Refusal.NAME_TAKEN, int(Refusal.NAME_TAKEN)
(Refusal.NAME_TAKEN, 2)
>>> Refusal(36)
Refusal.LOCK_CYCLE
"""

from enum import IntEnum


class Number(IntEnum):
    """A number with a name. Its representation is the name alone, in every version of Python."""

    def __repr__(self) -> str:
        return f"{{type(self).__name__}}.{{self.name}}"
{"".join(classes.values())}

# The fields of `Event` that each kind reads.
READS = {{
{reads}}}
# The kinds that make a thread, which may have no name.
NAMELESS = ({nameless})
'''


def takes_either(row):
    """Whether one function makes the event by name and the one by number. `fund` has two by number."""
    return len(row.numbered) == 1


def parameters(row):
    """The parameters of an event's function, with their types. Those with a default come last, a name first."""
    given = []
    for it in row.parameters:
        of, default = it.field.python, {"none": "None", "base": '"base"'}.get(it.default, it.default)
        if it.field.rust.endswith("Ref") and takes_either(row):
            of = "Union[str, int]"
        if it.name == "ticks":
            default = "0"
        order = bool(default), it.name != "name"
        given.append((order, f"{it.name}: {of}" + (f" = {default}" if default else "")))
    return [text for _, text in sorted(given, key=lambda it: it[0])]


def head(name, given, result, level):
    """The first lines of a function."""
    front, line = "    " * level, ", ".join(given)
    if len(line) > 112:
        line = f",\n{front}    ".join(given) + ","
    if len(front) + len(name) + len(line) + len(result) > 108:
        line = f"\n{front}    {line}\n{front}"
    return f"{front}def {name}({line}) -> {result}:"


def made(row):
    """The constructor's call."""
    return f"Event({', '.join([f'EventKind.{row.upper}'] + [f'{field(it)}={it.name}' for it in row.parameters])})"


def function(row, name):
    """The function that makes an event."""
    either = ""
    for it in row.numbered if takes_either(row) else []:
        either = f"    if not isinstance({numbered_field(it)}, str):\n        return {made(it)}\n"
    return f'''

{head(name, parameters(row), "Event", 0)}
    """The event of `Kernel.{name}`."""
{either}    return {made(row)}
'''


def method(row, name):
    """The method of `Kernel`."""
    given = parameters(row)
    reply = "Trapped" if row.is_trap else row.results[0]
    value = f"self.event({name}({', '.join(it.split(':')[0] for it in given)}), check=check)"
    lines = wrap(f"{doc_of(row, lambda it: f'`{it.lower}`')} {ends_of(row, upper)}", 108)
    about = "\n        ".join(lines + [""] * (len(lines) > 1))
    result, value = (f"{reply}Reply", f"cast({reply}Reply, {value})") if reply in REPLIES else ("Reply", value)
    return f'''
{head(name, ["self", *given, "*", CHECK], result, 1)}
        """{about}"""
        return {value}
'''


def events(rows):
    """events.py."""
    named = [(row, row.lower + "_" * iskeyword(row.lower)) for row in rows["event_number"]
             if row.named == row or not takes_either(row.named)]
    return f'''"""Events as values, for `Kernel.run` and `Kernel.event`. For each `Kernel` has a method of its name.

{MADE}

Give a currency or a thread by its name, a `str`, or by its number, an `int`. The kind of the event depends on which.

>>> make_ticket(amount=5, currency="alice")
Event(kind=EventKind.MAKE_TICKET, amount=5, currency='alice')
>>> make_ticket(amount=5, currency=3)
Event(kind=EventKind.MAKE_TICKET_IN, amount=5, currency_number=3)
>>> make_thread(None)  # without a name
Event(kind=EventKind.MAKE_THREAD, script=1)
"""

from typing import Optional, Union, cast

from .event import Event as Event
from .numbers import READS as READS, EventKind
from .records import {", ".join(f"{it}Reply" for it in REPLIES)}, Reply
{"".join(function(*it) for it in named)}

class Methods:
    """The methods of `Kernel` that make an event.

    A trap comes after `ticks` ticks of work, and costs one tick more.
    """

    def event(self, event: Event, *, {CHECK}) -> Reply:
        """Makes an event, and returns the reply."""
        raise NotImplementedError
{"".join(method(*it) for it in named)}'''
