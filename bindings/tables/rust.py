"""bindings/rust/src/generated.rs, as rustfmt lays it out."""

from .c import EVENT
from .table import MADE, SORTS, comment, doc_of, ends_of, sentence

# What the public enums say of themselves.
DOCS = {
    "EventRefusal": "The reason why the kernel refuses an event. A refused event has changed nothing.\n\n"
    "The numbers are those of docs/FORMATS.md and of outputs. [`Command`] and [`Event`] list each event's checks in "
    "their order, and the first that fails is the refusal.",
    "TrapRefusal": "The reason why the kernel refuses a trap. The thread is charged the trap's ticks even so, and "
    "goes on unless its quantum is used up.\n\n"
    "The numbers are those of docs/FORMATS.md and of outputs. [`Action`] lists each trap's checks in their order, and "
    "the first that fails is the refusal.",
    "Reply": "The reply to an event.\n\nA refusal is a reply too. [`ok`](Reply::ok) turns it into an error.",
    "Outcome": "The outcome of a trap. The thread goes on, unless noted otherwise below or the reply says that its "
    "quantum `ends`. The reply's `goes_on` combines both.",
    "Command": "A command of the console. For each its refusals, [`EventRefusal`]s, are listed in the order of the "
    "checks: the first check that fails is the refusal.\n\n"
    "Give a currency or a thread by its name or by its number; effects and refusals are equal. But a name that the "
    "kernel doesn't take ([`Sizes::plain_names`](crate::Sizes::plain_names)) is `BadName`, before all other checks.",
    "Action": "The request of a running thread's trap. For each its refusals, [`TrapRefusal`]s, are listed in the "
    "order of the checks.\n\n"
    "Ports are numbered from 1 to [`Sizes::ports`](crate::Sizes::ports), mutexes likewise.",
}
# A field of a reply: its type, and how it is taken from an `ffi::Reply`. Any other is a `u32`.
TAKEN = {
    "number": ("u128", "reply.number.number()"),
    "total": ("u128", "reply.total.number()"),
    "sent?": ("Option<u32>", "reply.has_sent.then_some(reply.sent)"),
    "draw?": ("Option<(u64, u64)>", "reply.has_draw.then_some((reply.number.low, reply.total.low))"),
    "outcome": ("Outcome", "Outcome::of(reply)"),
    "ends": ("bool", "reply.ends"),
    "goes_on": ("bool", "reply.goes_on"),
}
# A field of an event in the archive's form, where it isn't the same.
GIVEN = {"number": "ffi::Wide::of({})", "name": "{}.raw()", "name?": "Name::raw_of({})", "ticket": "u64::from({})"}


def numbers(sort, rows):
    """An enum of numbers. Those of refusals are public, and say themselves in words."""
    name = SORTS[sort].rust
    if name not in DOCS:
        lines = "".join(f"        {row.name} = {row.number},\n" for row in rows)
        return f"numbered! {{\n    /// {SORTS[sort].doc}\n    pub(crate) enum {name} {{\n{lines}    }}\n}}\n"
    lines = "".join(f"{comment(sentence(row.doc), '///', 2)}\n        {row.name} = {row.number},\n" for row in rows)
    # The words are the first sentence of what the refusal means.
    arms = "".join(f'            {name}::{row.name} => "{row.doc.split(". ")[0]}",\n' for row in rows)
    return f"""numbered! {{
{comment(DOCS[name], "///", 1)}
    pub enum {name} {{
{lines}    }}
}}

impl fmt::Display for {name} {{
    fn fmt(&self, f: &mut fmt::Formatter<'_>) -> fmt::Result {{
        f.write_str(match self {{
{arms}        }})
    }}
}}
"""


def variant(name, doc, fields):
    """A variant of an enum. Each field has a name, a type and a meaning."""
    lines = "".join(f"{comment(sentence(about), '///', 2)}\n        {it}: {of},\n" for it, of, about in fields)
    return f"{comment(doc, '///', 1)}\n    {name}" + (f" {{\n{lines}    }},\n" if fields else ",\n")


def enum(name, variants):
    """A public enum."""
    derived = "#[derive(Clone, Copy, Debug, PartialEq, Eq, Hash)]"
    return f"{comment(DOCS[name], '///')}\n{derived}\npub enum {name} {{\n{''.join(variants)}}}\n"


def arm(pattern, head, items=()):
    """A case of a match, with a value of this head and these items."""
    value = f"{head} {{ {', '.join(items)} }}" if items else head
    if len(pattern) + len(value) <= 102:
        return f"            {pattern} => {value},\n"
    if len(value) <= 103:
        return f"            {pattern} => {{\n                {value}\n            }}\n"
    lines = "".join(f"                {it}{',' * (not it.startswith('..'))}\n" for it in items)
    return f"            {pattern} => {head} {{\n{lines}            }},\n"


def answers(name, number, sort, rows):
    """The enum of replies or of outcomes, and how it is read. A variant with one field has no name for it."""
    variants, arms = {}, ""
    for row in rows:
        short, about, items = row.name.removesuffix(row.case), row.doc, []
        fields = [(it, *TAKEN.get(field, ("u32", f"reply.{field}")), meaning) for field, meaning, it in row.fields]
        if row.name == "Refused":
            why = {"Reply": "EventRefusal", "Outcome": "TrapRefusal"}[name]
            fields = [("why", why, f"{why}::of(reply.reason)", fields[0][3])]
        if row.case:
            declared, made = f"{short}(Listing)", f"{short}(Listing::{row.case})"
        elif len(fields) == 1:
            (_, of, taken, meaning), fields = fields[0], []
            declared, made, about = f"{short}({of})", f"{short}({taken})", f"{about} The field is {meaning}."
        else:
            declared, made, items = short, short, [f"{it}: {taken}" for it, _, taken, _ in fields]
        variants[declared] = variant(declared, about, [(it, of, meaning) for it, of, _, meaning in fields])
        arms += arm(f"{SORTS[sort].rust}::{row.name}", f"{name}::{made}", items)
    return enum(name, variants.values()) + f"""
impl {name} {{
    /// The one in the archive's form.
    pub(crate) fn of(reply: &ffi::Reply) -> {name} {{
        match {SORTS[sort].rust}::of(reply.{number}) {{
{arms}        }}
    }}
}}
"""


def fields_of(row):
    """The fields of an event's variant: the name in Rust, and the field of the table."""
    given = row.parameters[2:] if row.is_trap else row.parameters
    return [("number" if it.name == "sent" else it.name, it) for it in given]


def plain(row, name):
    """The case of a command or a trap in the archive's form."""
    kinds = ", ".join(f"EventKind::{it.name}" for it in [row, *row.numbered])
    rest, items = f"EventKind::{row.name}.event()", []
    for it, parameter in sorted(fields_of(row), key=lambda field: list(EVENT).index(field[1].field.c)):
        if parameter.field.rust.endswith("Ref"):
            rest = f"{it}.event({kinds})"
        else:
            given = GIVEN.get(parameter.name + parameter.mark, "{}").format(it)
            items.append(given if parameter.field.c == given else f"{parameter.field.c}: {given}")
    fields = ", ".join(it for it, _ in fields_of(row))
    pattern = f"{name}::{row.name} {{ {fields} }}" if fields else f"{name}::{row.name}"
    return arm(pattern, "ffi::Event", [*items, f"..{rest}"]) if items else arm(pattern, rest)


def requests(name, rows, variants="", arms=""):
    """The enum of commands or of traps, and each in the archive's form."""
    for row in rows:
        about = f"{row.doc}\n\n" + ends_of(row, lambda it: f"`{it}`", lambda sort, it: f"[`{sort}::{it}`]")
        variants += variant(row.name, about, [(it, its.field.rust, its.field.doc) for it, its in fields_of(row)])
        arms += plain(row, name)
    return enum(name, variants) + f"""
impl {name} {{
    /// The event in the archive's form, without the processor and the ticks of a trap.
    pub(crate) fn plain(&self) -> ffi::Event {{
        match *self {{
{arms}        }}
    }}
}}
"""


def function(row, about, parameters, body):
    """A function of `Event`. `yield` is a word of Rust."""
    return f"""
    /// {about}
    #[must_use]
    pub const fn {"yield_" if row.name == "Yield" else row.lower}({", ".join(parameters)}) -> Event {{
        {body}
    }}
"""


def command(row):
    """The function of `Event` that makes a command."""
    parameters, items = [], []
    for (it, its), mine in zip(fields_of(row.named), row.parameters):
        of, item = its.field.rust, it
        if of.endswith("Ref"):
            case = "Named" if mine.mark != "#" else "Numbered" if mine.name == it else mine.name.capitalize()
            item = f"{it}: {of}::{case}({mine.name})"
            of = "Name" if mine.mark != "#" else "u32"
        items.append(item)
        parameters.append(f"{mine.name}: {of}")
    shown = f"[`Command::{row.named.name}`]"
    about = f"{shown}." if row.named == row else doc_of(row, lambda _: shown)
    return function(row, about, parameters, f"Event::Command(Command::{row.named.name} {{ {', '.join(items)} }})")


def trap(row):
    """The function of `Event` that makes a trap."""
    parameters = [f"{it}: {its.field.rust}" for it, its in fields_of(row)]
    fields = ", ".join(it for it, _ in fields_of(row))
    action = f"Action::{row.name} {{ {fields} }}" if fields else f"Action::{row.name}"
    return function(row, f"[`Event::Trap`] of [`Action::{row.name}`].", ["processor: u32", "ticks: u32", *parameters],
                    f"Event::Trap {{ processor, ticks, action: {action} }}")


def generated(rows):
    """The file."""
    events = rows["event_number"]
    commands = [row for row in events if row.is_command]
    lists = "".join(arm(f"Command::List(Listing::{row.name[4:]})", f"EventKind::{row.name}.event()")
                    for row in events if row.is_list)
    listing = variant("List(Listing)", "Requests a listing.\n\nReply: [`Reply::List`]. It is never refused.", [])
    traps = [row for row in events if row.is_trap]
    functions = "".join([*map(command, commands), *map(trap, traps)]).removeprefix("\n")
    return "\n".join([
        f"//! {MADE}\n",
        "use crate::numbers::numbered;",
        "use crate::{ffi, CurrencyRef, Event, Listing, Name, TargetRef, ThreadRef};",
        "use core::fmt;\n",
        *(numbers(sort, rows[sort]) for sort in SORTS),
        answers("Reply", "kind", "reply_number", rows["reply_number"]),
        answers("Outcome", "outcome", "outcome_number", rows["outcome_number"]),
        requests("Command", [row for row in commands if row.named == row], listing, lists),
        requests("Action", traps),
        f"/// The commands and the traps as events.\nimpl Event {{\n{functions}}}\n",
    ])
