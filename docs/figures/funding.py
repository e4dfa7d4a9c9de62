"""A funding graph with its values worked out: the paper's currency graph, as examples/currency_graph.out lists it."""

import re

import pencil
from sources import ROOT

OUTPUT = ROOT / "examples" / "currency_graph.out"
BOX, STRIP, NODE = 162, 36, 36
CENTRES = {"base": 415, "alice": 217.5, "bob": 612.5, "task1": 87.5, "task2": 350, "task3": 612.5,
           "thread2": 262.5, "thread3": 437.5, "thread4": 612.5}
LAYERS = {"base": 14, "alice": 100, "bob": 100, "task1": 222, "task2": 222, "task3": 222,
          "thread2": 344, "thread3": 344, "thread4": 344}


def listed(pattern):
    """What each line of the listing that fits the pattern has in its places."""
    return [match.groups() for match in re.finditer(f"^{pattern}", OUTPUT.read_text(), re.M)]


def tickets():
    """Amount, issuer, target and value of each ticket."""
    rows = listed(r"ticket \d+ amount (\d+) in (\w+) funds (\w+) \w+ value (\d+)$")
    return [(int(amount), issuer, target, int(value)) for amount, issuer, target, value in rows]


def currencies():
    """Each currency's active amount and value, as listed."""
    rows = listed(r"currency \d+ (\w+) backing \d+ issued \d+ active (\d+) value (\d+)")
    return {name: (int(active), int(value)) for name, active, value in rows}


def threads():
    """Each thread's value, as listed. All are Ready."""
    return {name: int(value) for name, value in listed(r"thread \d+ (\w+) ready value (\d+)")}


class Rules:
    """The values by rules 9 to 11, from the amounts alone; the unit is 1, and nothing is lent."""

    def __init__(self, all_tickets, live):
        self.tickets, self.live = all_tickets, live

    def is_active(self, ticket):
        """A chain of tickets begins with it and ends at a live thread."""
        target = ticket[2]
        return target in self.live or any(self.is_active(other) for other in self.tickets if other[1] == target)

    def active_amount(self, currency):
        """The sum of the amounts of its active tickets."""
        return sum(ticket[0] for ticket in self.tickets if ticket[1] == currency and self.is_active(ticket))

    def ticket_value(self, ticket):
        """Its share of its currency's value, rounded down."""
        amount, issuer = ticket[:2]
        if not self.is_active(ticket):
            return 0
        return amount if issuer == "base" else self.value(issuer) * amount // self.active_amount(issuer)

    def value(self, name):
        """The sum of the values of the tickets that fund it."""
        return sum(self.ticket_value(ticket) for ticket in self.tickets if ticket[2] == name)


def compare(rules):
    """Stops if the listing and the rules differ."""
    for ticket in rules.tickets:
        assert rules.ticket_value(ticket) == ticket[3], ticket
    for name, (active, value) in currencies().items():
        assert rules.active_amount(name) == active, name
        assert name == "base" or rules.value(name) == value, name
    for name, value in threads().items():
        assert rules.value(name) == value, name


def working(rules, ticket):
    """How the ticket's value is computed."""
    amount, issuer, _, value = ticket
    if not rules.is_active(ticket):
        return "inactive, worth 0"
    if issuer == "base":
        return f"worth {value}"
    return f"{rules.value(issuer)} × {amount} / {rules.active_amount(issuer)} = {value}"


def strip(rules, ticket):
    """A ticket, which stands on the box of what it funds."""
    amount, issuer, target, _ = ticket
    x, y = CENTRES[target], LAYERS[target]
    return [pencil.box(x - BOX / 2, y, BOX, STRIP, "#ffffff", dashed=not rules.is_active(ticket)),
            pencil.text(x, y + 15, f"ticket: {amount} {issuer}"),
            pencil.text(x, y + 30, working(rules, ticket), size=11)]


def funds(rules, ticket):
    """The arrow from the ticket's issuer to the ticket."""
    _, issuer, target, _ = ticket
    below = LAYERS[issuer] + (NODE if issuer == "base" else STRIP + NODE)
    return pencil.arrow((CENTRES[issuer], below), (CENTRES[target], LAYERS[target]),
                        dashed=not rules.is_active(ticket))


def node(name, second, fill, y):
    """A currency or a thread."""
    x = CENTRES[name]
    return [pencil.box(x - BOX / 2, y, BOX, NODE, fill), pencil.text(x, y + 15, name, bold=True),
            pencil.text(x, y + 30, second)]


def figure():
    """Base above, threads below; each box stands under the ticket that funds it."""
    all_tickets, live = tickets(), threads()
    rules = Rules(all_tickets, live)
    compare(rules)
    parts = []
    for ticket in all_tickets:
        parts += strip(rules, ticket)
    for name, (active, value) in currencies().items():
        if name == "base":
            parts += node(name, f"active amount {active}", pencil.LENT, LAYERS[name])
        else:
            parts += node(name, f"worth {value}, active {active}", pencil.LENT, LAYERS[name] + STRIP)
    for name, value in live.items():
        parts += node(name, f"worth {value}", pencil.LIVE, LAYERS[name] + STRIP)
    parts += [funds(rules, ticket) for ticket in all_tickets]
    return pencil.picture(430, "A funding graph with its values worked out", parts)
