"""A call's lends before and after: a server without tickets and a client, in the rows `call_queued` of `lot_laws`."""

import pencil
from sources import clause, definition, events, numbers

ROWS, RUNS = "lot_laws/src/worked/transfers.rt", "lot_laws/specs/Runs.antt"
STEPS = {"before": "1. both run", "queued": "2. the client calls", "taken": "3. the server receives",
         "replied": "4. the server replies"}
PANEL, BOX = 170, 130
COLOURS = {"Ready": pencil.LIVE, "Running": pencil.LIVE, "Served": pencil.LENT}


class Machine:
    """Two threads, tickets of base and one port, by rules 6, 7, 11, 19, 20 and 21."""

    def __init__(self):
        self.names, self.status, self.server_of, self.tickets, self.queued = [], [], {}, [], []

    def make(self, name):
        """A new thread, by its number."""
        self.names.append(name)
        self.status.append("Ready")
        return len(self.names)

    def event(self, words):
        """Makes one event, given as the words of the definitions."""
        word, rest = words[0], words[1:]
        if word == "mkthr":
            self.make(rest[0])
        elif word == "fundx":
            self.tickets.append([int(rest[0]), self.make(rest[2])])
        elif word == "mktkt":
            self.tickets.append([int(rest[0]), None])
        elif word in ("fund", "unfund"):
            self.tickets[int(rest[0]) - 1][1] = self.names.index(rest[1]) + 1 if word == "fund" else None
        elif word == "Draw":
            self.draw(int(rest[0]))
        else:
            self.trap(int(rest[0]), rest[2:])

    def draw(self, processor):
        """The number is 0 in each row here, so the first Ready thread that is worth something wins."""
        ready = [t for t in self.numbers() if self.status[t - 1] == "Ready" and self.value(t) > 0]
        self.status[ready[0] - 1] = f"Running on {processor}"

    def trap(self, processor, action):
        """A call that is queued, the receipt of a queued call, or a reply."""
        thread = self.status.index(f"Running on {processor}") + 1
        if action[0] == "Call":
            self.status[thread - 1] = "Queued"
            self.queued.append(thread)
        elif action[0] == "Receive":
            client = self.queued.pop(0)
            self.status[client - 1], self.server_of[client] = "Served", thread
        else:
            client = next(c for c, server in self.server_of.items() if server == thread)
            self.status[client - 1] = "Ready"
            del self.server_of[client]

    def numbers(self):
        """The threads' numbers."""
        return range(1, len(self.names) + 1)

    def is_live(self, thread):
        """It is Ready or Running."""
        return self.status[thread - 1].split()[0] in ("Ready", "Running")

    def is_backed(self, thread):
        """Its lends lead to a live thread."""
        return self.is_live(thread) or thread in self.server_of and self.is_backed(self.server_of[thread])

    def value(self, thread):
        """Its tickets, if they are active, and what its clients lend it."""
        own = sum(amount for amount, target in self.tickets if target == thread) if self.is_backed(thread) else 0
        return own + sum(self.value(client) for client, server in self.server_of.items() if server == thread)

    def values(self):
        """Each thread's value, by number."""
        return [self.value(thread) for thread in self.numbers()]


def state_of(label):
    """The state that a clause speaks of, with the values compared."""
    run, values = clause(ROWS, "call_queued", label).removeprefix("values ").split("≡")
    machine = Machine()
    for words in events(definition(RUNS, "busy_server")):
        machine.event(words)
    for words in events(run.partition("++")[2]):
        machine.event(words)
    assert machine.values() == numbers(values), (label, machine.values())
    return machine


def thread_box(machine, thread, x, y):
    """A thread with its status and its value."""
    status = machine.status[thread - 1]
    fill = COLOURS.get(status.split()[0], pencil.INACTIVE)
    role = "client" if machine.tickets[0][1] == thread else "server"
    return [pencil.box(x - BOX / 2, y, BOX, 52, fill),
            pencil.text(x, y + 16, f"{role} {machine.names[thread - 1]}", bold=True),
            pencil.text(x, y + 31, status), pencil.text(x, y + 46, f"worth {machine.value(thread)}")]


def ticket_strip(machine, thread, x, y):
    """The client's ticket, active or not."""
    amount = machine.tickets[0][0]
    active = machine.is_backed(thread)
    return [pencil.box(x - BOX / 2, y, BOX, 22, "#ffffff", dashed=not active),
            pencil.text(x, y + 15, f"{amount} base, {'active' if active else 'inactive'}")]


def panel(index, label):
    """One state: the client above with its ticket, the server below, and the lend between them."""
    machine = state_of(label)
    server, client = machine.numbers()
    x = 10 + PANEL * index + PANEL / 2
    parts = [pencil.text(x, 22, STEPS[label], bold=True)]
    parts += ticket_strip(machine, client, x, 36) + thread_box(machine, client, x, 58)
    parts += thread_box(machine, server, x, 160)
    if client in machine.server_of:
        parts += [pencil.arrow((x, 110), (x, 160)), pencil.text(x + 8, 139, f"lends {machine.value(client)}", "start")]
    live = sum(machine.value(t) for t in machine.numbers() if machine.is_live(t))
    return parts + [pencil.text(x, 236, f"live threads: {live}")]


def figure():
    """The four states side by side."""
    parts = []
    for index, label in enumerate(STEPS):
        parts += panel(index, label)
    parts += [pencil.line([(10 + PANEL * n, 12), (10 + PANEL * n, 240)], colour="#cccccc") for n in range(1, 4)]
    return pencil.picture(254, "A call's lends before and after", parts)
