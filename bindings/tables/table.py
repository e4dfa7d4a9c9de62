"""The table that the proofs read, crates/lot_c/specs/Numbers.antt. It says itself what its rows mean."""

import re
from collections import namedtuple
from pathlib import Path
from textwrap import wrap

TOP = Path(__file__).resolve().parent.parent.parent
TABLE = TOP / "crates/lot_c/specs/Numbers.antt"
MADE = "Made by `bindings/write_tables` of `crates/lot_c/specs/Numbers.antt`."
CLAUSE = re.compile(r"(\w+) (\(?\w+\..*) = (\d+)$")
SIGNATURE = re.compile(r"(?:(\w+): )?(\w+)\((.*?)\)(?: -> ([\w ]+))?(?:; ([\w, ]+))?$")
PARAMETER = re.compile(r"(\w+)([?#]?)(?: = (\w+))?")

# A function of the table: the names of its enum in C, Rust and Python, the beginning of its constants in C, and what
# it numbers.
Sort = namedtuple("Sort", "c rust python front doc")
SORTS = {
    "code": Sort("lot_status", "CallStatus", "Status", "", "The statuses of calls."),
    "event_number": Sort(
        "lot_event_kind", "EventKind", "EventKind", "",
        "The kinds of events. A kind by number has the effect and the refusals of that by name."),
    "reply_number": Sort(
        "lot_reply_kind", "ReplyKind", "ReplyKind", "REPLY_", "The kinds of replies, with the fields that each sets."),
    "outcome_number": Sort(
        "lot_outcome", "OutcomeKind", "Outcome", "OUTCOME_", "The outcomes of traps, with the fields that each sets."),
    "refusal_number": Sort(
        "lot_refusal", "EventRefusal", "Refusal", "REFUSAL_",
        "The reasons for refusing an event or, from 30 on, a trap. A refused trap costs its ticks even so."),
    "trap_refusal_number": Sort("lot_refusal", "TrapRefusal", "Refusal", "TRAP_REFUSAL_", ""),
    "status_number": Sort(
        "lot_thread_status_kind", "StatusKind", "ThreadState", "STATUS_",
        "The statuses of threads, with the fields that each sets."),
    "target_kind": Sort("lot_target_kind", "TargetKind", "TargetKind", "TARGET_", "What a ticket funds."),
}

# A field of an event: where it lies in `lot_event`, its type in C, Rust and Python, and what it is.
Field = namedtuple("Field", "c c_type rust python doc")
FIELDS = {
    "processor": Field("processor", "uint32_t", "u32", "int", "The processor's number, from 1."),
    "ticks": Field("ticks", "uint32_t", "u32", "int", "The ticks of work before it."),
    "late": Field("ticks", "uint32_t", "u32", "int", "The late ticks."),
    "port": Field("object", "uint32_t", "u32", "int", "The port's number, from 1."),
    "mutex": Field("object", "uint32_t", "u32", "int", "The mutex's number, from 1."),
    "sent": Field("sent", "uint32_t", "u32", "int", "The number to send, any 32 bits."),
    "script": Field("script", "uint32_t", "u32", "int", "The number of its script, from 1."),
    "number": Field("number", "lot_wide", "u128", "int", "The drawn number of the lottery, any 128 bits."),
    "amount": Field("amount", "uint64_t", "u64", "int", "1 to 4294967295."),
    "ticket": Field("ticket", "uint64_t", "u32", "int", "The ticket's number, from 1."),
    "currency": Field("currency", "lot_name", "CurrencyRef", "str", "The currency."),
    "target": Field("name", "lot_name", "TargetRef", "str", "The currency or the thread to fund."),
    "thread": Field("name", "lot_name", "ThreadRef", "str", "The thread."),
    "name": Field("name", "lot_name", "Name", "str", "Its name, which no currency and no thread has."),
    "name?": Field(
        "name", "lot_name", "Option<Name>", "Optional[str]",
        "Its name, or `None`. Any number of threads may have none, and their numbers refer to them."),
    "#": Field("object", "uint32_t", "u32", "int", "Its number."),
}


class Parameter(namedtuple("Parameter", "name mark default")):
    """A field of an event, with `?` if it may be missing, and `#` if it is a number."""

    @property
    def field(self):
        return FIELDS["#"] if self.mark == "#" else FIELDS[self.name + self.mark]


class Row:
    """A row: a name with its number, and what the comment over it says."""

    def __init__(self, sort, term, number, notes):
        self.sort, self.number = sort, number
        # What it numbers, without the aliases, as Command, MakeTicket and Name.
        self.term = name, *binders = re.sub(r"\w+\.|[()]", "", term).split()
        self.case = "".join(it for it in binders if it[0].isupper())
        self.name = {"Unfunded": "None"}.get(name, name) + self.case
        self.words, self.fields, self.parameters = None, [], []
        if not notes:
            raise SystemExit(f"{TABLE.name}: there is no comment over {term}")
        if sort == "event_number":
            self.read_signature(notes[0])
            notes, binders = notes[1:], []
        self.upper = upper(self.name)
        self.lower = self.upper.lower()
        self.c = f"LOT_{SORTS[sort].front}{self.upper}"
        # The binders name the fields for Rust, one after the other. Whether a thread goes on follows from others.
        self.read_meaning(" ".join(notes), [it for it in binders if it[0].islower()] + ["goes_on"])

    def read_signature(self, line):
        """An event's name, which is its verb's if no other stands there, what it reads, and how it ends."""
        signature = SIGNATURE.match(line)
        if not signature:
            raise SystemExit(f"{TABLE.name}: {self.name} has no signature, but {line}")
        name, self.verb, parameters, results, refusals = (it or "" for it in signature.groups())
        self.name = name or self.verb
        self.parameters = [Parameter(*it) for it in PARAMETER.findall(parameters)]
        self.results, self.refusals = re.findall(r"[A-Z]\w+", results), re.findall(r"\w+", refusals)

    def read_meaning(self, text, names):
        """The words, the fields that it sets, and what it means."""
        quoted = re.match(r'"(.*?)"[:.]? ?', text)
        if quoted:
            self.words, text = quoted[1], text[quoted.end():]
        if re.match(r"\w+\??: ", text):
            fields, _, text = text.partition(". ")
            self.fields = [(*it.split(": ", 1), name) for it, name in zip(fields.split("; "), names)]
        self.doc = text or self.words or ""


def upper(name):
    """MAKE_TICKET, of MakeTicket."""
    return re.sub(r"(?<!^)(?=[A-Z])", "_", name).upper()


def read_rows():
    """The rows of each function of the table. One with an earlier row's number shows as that row."""
    rows, notes = {sort: [] for sort in SORTS}, []
    for line in TABLE.read_text().splitlines():
        found = CLAUSE.match(line)
        if found:
            sort, term, number = found.groups()
            if all(row.number != number for row in rows[sort]):
                rows[sort].append(Row(sort, term, number, notes))
        notes = notes + [line[3:]] if line.startswith("-- ") else []
    relate(rows["event_number"], {row.name for row in rows["outcome_number"]})
    return rows


def relate(events, outcomes):
    """Tells each event which is the one by name, and which are those by number; and whether it is a trap or a command.
    """
    for row in events:
        row.named = next(it for it in events if it.name == row.verb)
        row.numbered = [it for it in events if it.verb == row.name != it.name]
        row.results, row.refusals = row.results or row.named.results, row.refusals or row.named.refusals
        row.is_trap = row.results[0] in outcomes
        row.is_list = row.name.startswith("List")
        names = [it.name for it in row.parameters]
        row.is_command = not row.is_list and "processor" not in names and row.name != "Wake"


def numbered_field(row):
    """What a row by number takes a number of."""
    return next(it.name for it in row.parameters if it.mark == "#")


def doc_of(row, form):
    """What an event does. One by number does what its verb's does."""
    if row.named == row:
        return row.doc
    return f"The same as {form(row.named)}, given the number of the {numbered_field(row)}."


def ends_of(row, form, result=None):
    """The kind of an event's reply or its trap's outcome, and the refusals in the order of its checks."""
    sort = "Outcome" if row.is_trap else "Reply"
    refusals = (["BadProcessor", "NotRunning", "BadTicks"] if row.is_trap and not result else []) + row.refusals
    results = " or ".join(result(sort, it) if result else form(it) for it in row.results)
    ends = f"Refusals: {', '.join(map(form, refusals))}." if refusals else "It is never refused."
    return f"{sort}: {results}. {ends}"


def sentence(text):
    """The text with a capital letter and a full stop."""
    return text[:1].upper() + text[1:] + ("" if text.endswith(".") else ".")


def comment(text, mark, level=0):
    """The text in lines that begin with this mark, at this level."""
    front = "    " * level + mark
    parts = ["\n".join(f"{front} {line}" for line in wrap(part, 118 - len(front))) for part in text.split("\n\n")]
    return f"\n{front}\n".join(parts)


def noted(line, note, mark, labels):
    """The line of a constant with a note of its fields and its meaning: behind it, or before it if both are too long.
    """
    fields = "; ".join(f"{labels.get(it, it).rstrip('?')}: {meaning}" for it, meaning, _ in note.fields)
    text = f"{fields}. {note.doc}" if fields else note.doc
    if len(line) + len(text) > 113:
        return f"{comment(text, mark, 1)}\n{line}\n"
    return f"{line}{' ' * (3 - len(mark))}{mark} {text}\n"
