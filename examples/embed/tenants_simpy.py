"""Three tenants of one server, as a model in SimPy. The server gives its quanta to their workers by lottery.

Each tenant has a currency, backed by base tickets, and issues 100 of it to each of its workers. A worker has a job for
the server, waits until it is done, thinks for a while, and begins again. Its thread sleeps while it has no job. In
the second period bronze has three times as many workers: they share what bronze had, and gold and silver keep their
shares.

    PYTHONPATH=bindings/python python3 examples/embed/tenants_simpy.py

Times are in ticks. Seeds are fixed and times are whole numbers, so each run prints the same.
"""

from collections import Counter
from dataclasses import dataclass
from typing import Optional

import lot
import simpy

QUANTUM = 100
PERIOD = 500_000
THINKING, JOB = 200, 350  # means
BASE_TICKETS = {"gold": 300, "silver": 200, "bronze": 100}
WORKERS = 4


@dataclass
class Worker:
    """A client of the server. The kernel has a thread for it from its first job on, without a name."""

    tenant: str
    thread: Optional[int] = None


@dataclass
class Job:
    """What a worker has the server do."""

    worker: Worker
    left: int
    done: simpy.Event


class Server:
    """One processor, and the kernel that says who runs on it."""

    def __init__(self, env):
        self.env = env
        self.kernel = lot.Kernel(threads=64, processors=1, quantum=QUANTUM)
        self.numbers = lot.ParkMiller(1)
        self.jobs = {}  # of each thread that has one
        self.work_came = env.event()
        self.workers = Counter()  # of each tenant
        self.ticks = Counter()  # that each tenant has had
        for tenant, amount in BASE_TICKETS.items():
            self.kernel.make_currency(tenant)
            self.kernel.fund(self.kernel.make_ticket(amount).ticket, tenant)

    def add_worker(self, tenant):
        self.workers[tenant] += 1
        return Worker(tenant)

    def submit(self, worker, ticks):
        """Makes or wakes a worker's thread for a job of so many ticks. The event that is triggered when it is done."""
        job = Job(worker, ticks, self.env.event())
        if worker.thread is None:
            worker.thread = self.kernel.make_funded(None, 100, worker.tenant).thread
        else:
            self.kernel.wake(worker.thread)
        self.jobs[worker.thread] = job
        if not self.work_came.triggered:
            self.work_came.succeed()
        return job.done

    def run(self):
        """Draws a worker for each quantum. Where nobody has a job it waits for one."""
        while True:
            reply = self.kernel.draw(processor=1, number=next(self.numbers))
            if reply.kind is lot.ReplyKind.IDLE:
                self.work_came = self.env.event()
                yield self.work_came
            else:
                yield from self.serve(self.jobs[reply.thread])

    def serve(self, job):
        """Runs a job for a quantum, or up to its end: then the worker goes to sleep, which costs a tick.

        A worker that goes to sleep is compensated for the rest of its quantum when it wakes.
        """
        if job.left >= QUANTUM:
            yield self.env.timeout(QUANTUM)
            job.left -= QUANTUM
            reply = self.kernel.expire(processor=1)
        else:
            yield self.env.timeout(job.left + 1)
            reply = self.kernel.sleep(processor=1, ticks=job.left)
            job.done.succeed()
        self.ticks[job.worker.tenant] += reply.ticks


def work(env, server, worker, seed, responses):
    """A worker, by a seed's numbers: it adds the time that each of its jobs took to its tenant's responses."""
    numbers = lot.ParkMiller(seed)

    def around(mean):
        return 1 + next(numbers) % (2 * mean - 1)

    while True:
        since = env.now
        yield server.submit(worker, around(JOB))
        responses[worker.tenant].append(env.now - since)
        yield env.timeout(around(THINKING))


def show(period, server, responses):
    """Prints what each tenant had in a period, beside what is due to it by its tickets."""
    total, tickets = sum(server.ticks.values()), sum(BASE_TICKETS.values())
    print(f"period {period}")
    for tenant, amount in BASE_TICKETS.items():
        share, due = 100 * server.ticks[tenant] / total, 100 * amount / tickets
        took = responses[tenant]
        print(
            f"  {tenant:6} {server.workers[tenant]:2} workers, {share:4.1f}% of the ticks (due {due:4.1f}%), "
            f"{len(took):4} jobs in {sum(took) / len(took):6.1f} ticks each"
        )
        took.clear()
    server.ticks.clear()


def main():
    env = simpy.Environment()
    server = Server(env)
    responses = {tenant: [] for tenant in BASE_TICKETS}

    def hire(tenant, count):
        for _ in range(count):
            worker = server.add_worker(tenant)
            env.process(work(env, server, worker, 1000 + sum(server.workers.values()), responses))

    for tenant in BASE_TICKETS:
        hire(tenant, WORKERS)
    env.process(server.run())
    env.run(until=PERIOD)
    show(1, server, responses)
    hire("bronze", 2 * WORKERS)
    env.run(until=2 * PERIOD)
    show(2, server, responses)


main()
