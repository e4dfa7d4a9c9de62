"""The made sections of bindings/c/lot.h, and test_kinds.h beside it."""

import re
from textwrap import fill

from .table import MADE, SORTS, TOP, comment, doc_of, ends_of, noted, upper

# The fields of lot_event behind its kind, and what each holds if the kind doesn't read it.
EVENT = dict(processor="0", ticks="0", object="0", sent="0", script="0", number="{0, 0}", amount="0", ticket="0",
             currency="{0, {0}}", name="{0, {0}}")
LABELS = {"sent": "sent, has_sent", "sent?": "sent, has_sent", "draw?": "number, total, has_draw"}


def kind(row, line):
    """The line of a kind of events, with the fields that it reads."""
    places = [(it.field.c, it.name) for it in row.parameters]
    return f"{line} // {', '.join(c if c == name else f'{c}: {name}' for c, name in places) or 'no field'}\n"


def enum(c, doc, rows):
    """An enum, and the function that says its numbers in words."""
    lines = ""
    for row in rows:
        line = f"    {row.c} = {row.number}{',' if row is not rows[-1] else ''}"
        if row.sort == "event_number":
            lines += kind(row, line)
        else:
            # A constant that its words explain has no note.
            lines += f"{line}\n" if row.doc == row.words else noted(line, row, "//", LABELS)
    text = f"{comment(doc, '//')}\ntypedef enum {c} LOT_OF_UINT32 {{\n{lines}}} {c};\n"
    return text + words(c, c[len("lot_"):], rows) if rows[0].words else text


def words(c, name, rows):
    """The function that says an enum's numbers in words."""
    cases = "".join(f'    case {row.c}: return "{row.words}";\n' for row in rows)
    return f"""
// Returns the {name} in words, for printing: a static string, "unknown {name}" for any other number.
static inline const char *lot_{name}_text(uint32_t {name}) {{
    switch (LOT_CAST({c}, {name})) {{
{cases}    }}
    return "unknown {name}";
}}
"""


def function_name(row):
    """The name of the function that makes an event. The struct of replies has the other name."""
    return f"lot_{ {'reply': 'reply_with'}.get(row.lower, row.lower)}"


def function(row):
    """The function that makes an event."""
    given = {it.field.c: it.name for it in row.parameters}
    arguments = ", ".join([row.c] + [given.get(field, blank) for field, blank in EVENT.items()])
    parameters = ", ".join(f"{it.field.c_type} {it.name}" for it in row.parameters) or "void"
    about = f"{doc_of(row, lambda it: f'lot_{it.lower}')} {ends_of(row, upper)}"
    return f"""{comment(about, "//")}
static inline lot_event {function_name(row)}({parameters}) {{
    return LOT_EVENT({arguments});
}}
"""


def header(rows):
    """The header, with its two made sections, each of which ends where the next section begins."""
    enums = {}
    for sort, its in SORTS.items():
        enums.setdefault(its.c, (its.doc, []))[1].extend(rows[sort])
    sections = {
        "numbers": "\n".join(enum(c, doc, its) for c, (doc, its) in enums.items()),
        "functions": "\n".join(map(function, rows["event_number"])),
    }
    text = (TOP / "bindings/c/lot.h").read_text()
    for name, made in sections.items():
        section = re.compile(rf"(// ---- {name}, made .*\n\n)(?s:.*?)(?=// ---- )")
        text = section.sub(lambda found: f"{found[1]}{made}\n", text)
    return text


def reads(row):
    """What the tests know of a kind of events."""
    known = [it.field.c for it in row.parameters]
    known += ["is_trap"] * row.is_trap + ["makes_thread"] * any(it.mark == "?" for it in row.parameters)
    known += ["of_thread"] * any(it.name + it.mark == "thread#" for it in row.parameters)
    named = [f".named = {row.named.c}"] * (row.named != row)
    return f"[{row.c}] = {{{', '.join(named + [f'.{it} = true' for it in known]) or 0}}},"


def test_kinds(rows):
    """test_kinds.h."""
    events = rows["event_number"]
    lasts = dict(KIND="event_number", REPLY="reply_number", OUTCOME="outcome_number", REFUSAL="trap_refusal_number",
                 STATUS="status_number")
    last = ",\n".join(f"    LAST_{name} = {rows[sort][-1].c}" for name, sort in lasts.items())
    kinds = "\n".join(fill(reads(row), 118, initial_indent=" " * 4, subsequent_indent=" " * 8) for row in events)
    given = {row: ", ".join(f"it->{it.field.c}" for it in row.parameters) for row in events}
    cases = "".join(f"    case {row.c}: return {function_name(row)}({given[row]});\n" for row in events)
    return f"""// What the tests know of each kind of events, and the last number of each enum.
// {MADE}

#ifndef TEST_KINDS_H
#define TEST_KINDS_H

#include "lot.h"

enum {{
{last}
}};

struct kind {{
    uint32_t named;    // of a command by number, the kind by name
    bool of_thread;    // whether it has the number of a thread
    bool makes_thread; // which may have no name
    bool is_trap;
    bool {", ".join(EVENT)}; // whether it reads the field
}};

static const struct kind kinds_of_events[LAST_KIND + 1] = {{
{kinds}
}};

// The event that the function of its kind makes of the fields that it reads.
static inline lot_event only_read(const lot_event *it) {{
    switch ((lot_event_kind)it->kind) {{
{cases}    }}
    return *it;
}}

#endif
"""
