//! Rows of worked kernels, and what no call takes.

use lot::{
    weight, winner, Action, Command, Error, Event, EventRefusal, Kernel, Listing, Name, Outcome, ParkMiller, Reply,
    Runner, Sizes, Status, Target, TrapRefusal,
};
use std::num::NonZeroU32;

fn name(text: &str) -> Name {
    Name::new(text).expect("a name")
}

fn command(kernel: &mut Kernel, command: Command) -> Reply {
    kernel.event(&Event::Command(command))
}

fn fund_thread(kernel: &mut Kernel, amount: u64, currency: &str, thread: &str) -> Reply {
    let (currency, name) = (name(currency).into(), Some(name(thread)));
    command(kernel, Command::MakeFunded { amount, currency, name, script: 1 })
}

fn draw(kernel: &mut Kernel, number: u128) -> Reply {
    kernel.event(&Event::Draw { processor: 1, number })
}

fn trap(kernel: &mut Kernel, ticks: u32, action: Action) -> Reply {
    kernel.event(&Event::Trap { processor: 1, ticks, action })
}

#[test]
fn list_lottery() {
    let mut kernel = Kernel::new(Sizes::SMALL).expect("small");
    for (number, (amount, thread)) in (1..).zip([(10, "a"), (2, "b"), (5, "c"), (1, "d"), (2, "e")]) {
        assert_eq!(fund_thread(&mut kernel, amount, "base", thread), Reply::Funded { ticket: number, thread: number });
    }
    for (d, thread, number) in
        [(15, 3, 15), (9, 1, 9), (10, 2, 10), (17, 4, 17), (18, 5, 18), (35, 3, 15), (36_090_892_629_924, 1, 4)]
    {
        assert_eq!(draw(&mut kernel, d), Reply::Winner { thread, number, total: 20, delivered: None });
        assert_eq!(draw(&mut kernel, d), Reply::Refused(EventRefusal::Busy));
        assert_eq!(kernel.runner(1), Some(Runner { thread, used: 0 }));
        assert_eq!(kernel.event(&Event::Expire { processor: 1 }), Reply::Expired { thread, ticks: 100 });
        assert_eq!(kernel.runner(1), None);
    }
}

#[test]
fn currency_graph() {
    let mut kernel = Kernel::new(Sizes::SMALL).expect("small");
    for (number, text) in (1..).zip(["alice", "bob", "task1", "task2", "task3"]) {
        assert_eq!(command(&mut kernel, Command::MakeCurrency { name: name(text) }), Reply::Currency(number));
    }
    let tickets = [
        (1000, "base", "alice"),
        (2000, "base", "bob"),
        (100, "alice", "task1"),
        (200, "alice", "task2"),
        (100, "bob", "task3"),
    ];
    for (number, (amount, currency, target)) in (1..).zip(tickets) {
        assert_eq!(
            command(&mut kernel, Command::MakeTicket { amount, currency: name(currency).into() }),
            Reply::Ticket(number)
        );
        assert_eq!(command(&mut kernel, Command::Fund { ticket: number, target: name(target).into() }), Reply::Done);
    }
    for (amount, currency, thread) in [(200, "task2", "thread2"), (300, "task2", "thread3"), (100, "task3", "thread4")]
    {
        fund_thread(&mut kernel, amount, currency, thread);
    }
    let values: Vec<u64> = (1..=3).map(|thread| kernel.thread_row(thread).expect("there").value).collect();
    assert_eq!(values, [400, 600, 2000]);
    assert_eq!(kernel.thread_row(4), None);
    let row = kernel.currency_row(4).expect("there");
    assert_eq!((row.name, row.backing, row.issued, row.active_amount, row.value), (name("task2"), 1, 2, 500, 1000));
    let row = kernel.ticket_row(3).expect("there");
    assert_eq!((row.issuer, row.is_active, row.value), (name("alice"), false, 0));
    assert_eq!((row.target, row.target_name), (Some(Target::Currency(3)), Some(name("task1"))));
    let cycle = Command::MakeTicket { amount: 1, currency: name("task2").into() };
    assert_eq!(command(&mut kernel, cycle), Reply::Ticket(9));
    let cycle = Command::Fund { ticket: 9, target: name("alice").into() };
    assert_eq!(command(&mut kernel, cycle), Reply::Refused(EventRefusal::Cycle));
    assert_eq!(command(&mut kernel, Command::List(Listing::Threads)), Reply::List(Listing::Threads));
    assert_eq!((kernel.ticket_count(), kernel.currency_count()), (9, 6));
    assert_eq!(kernel.sizes(), Sizes::SMALL);
}

// Inflation and deflation (3.2): 100 of base back alice, whose threads a and b have 10 of it each; c has 100 of base.
#[test]
fn inflation() {
    let mut kernel = Kernel::new(Sizes::SMALL).expect("small");
    command(&mut kernel, Command::MakeCurrency { name: name("alice") });
    command(&mut kernel, Command::MakeTicket { amount: 100, currency: name("base").into() });
    command(&mut kernel, Command::Fund { ticket: 1, target: name("alice").into() });
    for (amount, currency, thread) in [(10, "alice", "a"), (10, "alice", "b"), (100, "base", "c")] {
        fund_thread(&mut kernel, amount, currency, thread);
    }
    let expire = |kernel: &mut Kernel| kernel.event(&Event::Expire { processor: 1 });
    assert_eq!(draw(&mut kernel, 50), Reply::Winner { thread: 2, number: 50, total: 200, delivered: None });
    expire(&mut kernel);
    // More of alice's tickets for a: it takes a share of b's, and none of c's.
    assert_eq!(command(&mut kernel, Command::SetTicket { ticket: 2, amount: 30 }), Reply::Done);
    let row = kernel.ticket_row(2).expect("there");
    assert_eq!((row.amount, row.value, row.issuer), (30, 75, name("alice")));
    assert_eq!((row.target, row.target_name), (Some(Target::Thread(1)), Some(name("a"))));
    assert_eq!(draw(&mut kernel, 50), Reply::Winner { thread: 1, number: 50, total: 200, delivered: None });
    expire(&mut kernel);
    // Fewer of base's for alice: 20 for a and b, whose shares of them stay 3 to 1.
    assert_eq!(command(&mut kernel, Command::SetTicket { ticket: 1, amount: 20 }), Reply::Done);
    assert_eq!(draw(&mut kernel, 15), Reply::Winner { thread: 2, number: 15, total: 120, delivered: None });
    let values: Vec<u64> = (1..=3).map(|thread| kernel.thread_row(thread).expect("there").value).collect();
    assert_eq!(values, [15, 5, 100]);
}

// A thread is removed once it is dead and no ticket funds it. Its name is free then, and its number isn't.
#[test]
fn removal() {
    let mut kernel = Kernel::new(Sizes::SMALL).expect("small");
    let remove = |kernel: &mut Kernel| command(kernel, Command::RemoveThread { thread: name("a").into() });
    assert_eq!(remove(&mut kernel), Reply::Refused(EventRefusal::NoThread));
    fund_thread(&mut kernel, 10, "base", "a");
    fund_thread(&mut kernel, 5, "base", "b");
    assert_eq!(remove(&mut kernel), Reply::Refused(EventRefusal::Alive));
    assert_eq!(draw(&mut kernel, 9), Reply::Winner { thread: 1, number: 9, total: 15, delivered: None });
    trap(&mut kernel, 4, Action::Exit);
    assert_eq!(remove(&mut kernel), Reply::Refused(EventRefusal::InUse));
    assert_eq!(command(&mut kernel, Command::Unfund { ticket: 1 }), Reply::Done);
    assert_eq!(remove(&mut kernel), Reply::Done);
    assert_eq!((kernel.thread_row(1), kernel.script_of(1)), (None, None));
    assert_eq!(remove(&mut kernel), Reply::Refused(EventRefusal::NoThread));
    assert_eq!(fund_thread(&mut kernel, 20, "base", "a"), Reply::Funded { ticket: 3, thread: 3 });
    let threads: Vec<_> = kernel.threads().map(|(number, row)| (number, row.name, row.value)).collect();
    assert_eq!(threads, [(2, Some(name("b")), 5), (3, Some(name("a")), 20)]);
}

// Commands by number, where 1 is both a currency and a thread. 100 of base back the currency, whose 40 are a's and b's.
#[test]
fn by_number() {
    let mut kernel = Kernel::new(Sizes::SMALL).expect("small");
    let (a, b) = (name("a"), name("b"));
    let events = [
        (Event::make_currency(name("alice")), Reply::Currency(1)),
        (Event::make_ticket_in(100, 0), Reply::Ticket(1)),
        (Event::fund_currency(1, 1), Reply::Done),
        (Event::make_funded_in(10, 1, Some(a), 1), Reply::Funded { ticket: 2, thread: 1 }),
        (Event::make_thread(Some(b), 1), Reply::Thread(2)),
        (Event::make_ticket_in(30, 1), Reply::Ticket(3)),
        (Event::fund_thread(3, 2), Reply::Done),
        (Event::fund_currency(3, 9), Reply::Refused(EventRefusal::NoTarget)),
        (Event::fund_thread(3, 0), Reply::Refused(EventRefusal::NoTarget)),
        (Event::make_ticket_in(1, 2), Reply::Refused(EventRefusal::NoCurrency)),
        (Event::remove_currency_numbered(0), Reply::Refused(EventRefusal::BaseFixed)),
        (Event::remove_currency_numbered(1), Reply::Refused(EventRefusal::InUse)),
        (Event::draw(1, 24), Reply::Winner { thread: 1, number: 24, total: 100, delivered: None }),
        (Event::exit(1, 0), trapped(1, 1, Outcome::Exited, false)),
        (Event::remove_thread_numbered(1), Reply::Refused(EventRefusal::InUse)),
        (Event::unfund(2), Reply::Done),
        (Event::remove_thread_numbered(1), Reply::Done),
        (Event::fund_thread(2, 1), Reply::Refused(EventRefusal::NoTarget)),
    ];
    for (event, reply) in events {
        assert_eq!(kernel.event(&event), reply, "{event:?}");
    }
    let targets: Vec<_> = kernel.tickets().map(|(_, row)| (row.issuer, row.target, row.target_name)).collect();
    let alice = name("alice");
    let wanted = [
        (Name::BASE, Some(Target::Currency(1)), Some(alice)),
        (alice, None, None),
        (alice, Some(Target::Thread(2)), Some(b)),
    ];
    assert_eq!(targets, wanted);
}

// With `reuse`, the next thread gets the number of the last one removed, and a dead thread keeps its number.
#[test]
fn given_again() {
    let mut kernel = Kernel::new(Sizes { tickets: 2, threads: 2, reuse: true, ..Sizes::SMALL }).expect("small");
    fund_thread(&mut kernel, 10, "base", "a");
    fund_thread(&mut kernel, 5, "base", "b");
    let c = Event::make_thread(Some(name("c")), 1);
    assert_eq!(kill(&mut kernel, "a"), Reply::Done);
    assert_eq!(kernel.event(&c), Reply::Refused(EventRefusal::Full));
    assert_eq!(kernel.event(&Event::unfund(1)), Reply::Done);
    assert_eq!(kernel.event(&Event::remove_thread(name("a"))), Reply::Done);
    assert_eq!(kernel.event(&c), Reply::Thread(1));
    assert_eq!(kernel.event(&Event::remove_ticket(1)), Reply::Done);
    assert_eq!(kernel.event(&Event::make_ticket(7, Name::BASE)), Reply::Ticket(1));
}

// Threads without a name have numbers alone. With `reuse` they come and go, in room for two.
#[test]
fn no_names() {
    let mut kernel = Kernel::new(Sizes { tickets: 2, threads: 2, reuse: true, ..Sizes::SMALL }).expect("small");
    assert_eq!(kernel.event(&Event::make_thread(None, 1)), Reply::Thread(1));
    assert_eq!(kernel.event(&Event::make_ticket_in(3, 0)), Reply::Ticket(1));
    assert_eq!(kernel.ticket_row(1).map(|row| (row.target, row.target_name)), Some((None, None)));
    assert_eq!(kernel.event(&Event::fund_thread(1, 1)), Reply::Done);
    for _ in 0..100 {
        let made = kernel.event(&Event::make_funded_in(7, 0, None, 1));
        assert_eq!(made, Reply::Funded { ticket: 2, thread: 2 });
        let rows: Vec<_> = kernel.threads().map(|(number, row)| (number, row.name, row.value)).collect();
        assert_eq!(rows, [(1, None, 3), (2, None, 7)]);
        let targets: Vec<_> = kernel.tickets().map(|(_, row)| (row.target, row.target_name)).collect();
        assert_eq!(targets, [1, 2].map(|thread| (Some(Target::Thread(thread)), None)));
        let ends =
            [Event::kill_numbered(2), Event::unfund(2), Event::remove_ticket(2), Event::remove_thread_numbered(2)];
        assert_eq!(kernel.run(&ends), Ok(vec![Reply::Done; 4]));
    }
}

// The server used 1 tick of its 100, and has 10 and the 20 that it serves. If queued calls lend, it has the third
// thread's 30 too.
#[test]
fn queued_lend() {
    for (queued_lend, total) in [(true, 6000), (false, 3000)] {
        let mut kernel = Kernel::new(Sizes { queued_lend, ..Sizes::SMALL }).expect("small");
        assert_eq!(kernel.sizes().queued_lend, queued_lend);
        for (amount, thread) in [(10, "server"), (20, "c"), (30, "d")] {
            fund_thread(&mut kernel, amount, "base", thread);
        }
        draw(&mut kernel, 0);
        assert_eq!(trap(&mut kernel, 0, Action::Receive { port: 1 }), trapped(1, 1, Outcome::Waits, false));
        draw(&mut kernel, 0);
        let served = trapped(2, 1, Outcome::ServedBy(1), false);
        assert_eq!(trap(&mut kernel, 0, Action::Call { port: 1, number: 5 }), served);
        draw(&mut kernel, 3000);
        assert_eq!(trap(&mut kernel, 0, Action::Call { port: 1, number: 6 }), trapped(3, 1, Outcome::Queued, false));
        assert_eq!(draw(&mut kernel, 0), Reply::Winner { thread: 1, number: 0, total, delivered: Some(5) });
    }
}

// A kernel with plain names takes them, and one without refuses each event that has one.
#[test]
fn plain_names() {
    let (job, team) = (Name::plain("Job#1").expect("plain"), Name::plain("~").expect("plain"));
    let make = Event::make_funded(4, team, Some(job), 1);
    let mut plain = Kernel::new(Sizes { plain_names: true, ..Sizes::SMALL }).expect("small");
    assert!(plain.sizes().plain_names);
    let run = [Event::make_currency(team), make, Event::make_funded(5, Name::BASE, None, 1), Event::kill(job)];
    assert!(plain.run(&run).is_ok());
    assert_eq!(plain.event(&Event::make_currency(job)), Reply::Refused(EventRefusal::NameTaken));
    assert_eq!(plain.ticket_row(1).map(|row| (row.issuer, row.target_name)), Some((team, Some(job))));
    assert_eq!(plain.thread_row(1).map(|row| (row.name, row.status)), Some((Some(job), Status::Dead)));
    let mut strict = Kernel::new(Sizes::SMALL).expect("small");
    for event in [
        Event::make_currency(team),
        Event::make_ticket(1, team),
        Event::fund(9, job),
        Event::remove_thread(job),
        Event::remove_currency(team),
        Event::kill(job),
        Event::make_thread(Some(job), 1),
        Event::make_funded_in(0, 9, Some(job), 1),
        make,
    ] {
        assert_eq!(strict.event(&event), Reply::Refused(EventRefusal::BadName), "{event:?}");
    }
    let stopped = strict.run(&[Event::draw(1, 0), make]).expect_err("a plain name");
    assert_eq!((stopped.done(), stopped.refusal.number()), (1, 1));
    assert_eq!(stopped.refusal.to_string(), "the kernel doesn't take such a name");
    assert_eq!((strict.currency_count(), strict.ticket_count()), (1, 0));
}

fn trapped(thread: u32, ticks: u32, outcome: Outcome, goes_on: bool) -> Reply {
    Reply::Trapped { thread, ticks, outcome, ends: false, goes_on }
}

fn kill(kernel: &mut Kernel, thread: &str) -> Reply {
    kernel.event(&Event::kill(name(thread)))
}

fn status(kernel: &Kernel, thread: u32) -> Status {
    kernel.thread_row(thread).expect("there").status
}

// A thread that runs and is killed leaves its processor idle, and is charged nothing more. The other processor's thread
// runs on.
#[test]
fn killed_runner() {
    let mut kernel = Kernel::new(Sizes::SMALL).expect("small");
    fund_thread(&mut kernel, 400, "base", "a");
    fund_thread(&mut kernel, 100, "base", "b");
    draw(&mut kernel, 0);
    kernel.event(&Event::draw(2, 0)).ok().expect("thread 2");
    assert_eq!(trap(&mut kernel, 29, Action::Lock { mutex: 1 }), trapped(1, 30, Outcome::Locked, true));
    assert_eq!(kill(&mut kernel, "a"), Reply::Done);
    assert_eq!((kernel.runner(1), kernel.runner(2)), (None, Some(Runner { thread: 2, used: 0 })));
    let row = kernel.thread_row(1).expect("there");
    assert_eq!((row.status, row.value, row.weight, row.quanta, row.ticks), (Status::Dead, 0, 0, 1, 30));
    assert_eq!(kernel.event(&Event::expire(1)), Reply::Refused(EventRefusal::NotRunning));
    // To charge the other thread for the 50 ticks that it ran, it is preempted first.
    assert_eq!(kernel.event(&Event::preempt(2, 50)), Reply::Expired { thread: 2, ticks: 50 });
    assert_eq!(kernel.event(&Event::kill_numbered(2)), Reply::Done);
    assert_eq!((status(&kernel, 2), kernel.thread_row(2).map(|row| row.ticks)), (Status::Dead, Some(50)));
    // The killed thread owns its mutex no more.
    command(&mut kernel, Command::Unfund { ticket: 1 });
    assert_eq!(kernel.event(&Event::remove_thread_numbered(1)), Reply::Done);
}

// The clients of a killed server are ready, with nothing delivered and with their compensation (4.6).
#[test]
fn killed_server() {
    let mut kernel = Kernel::new(Sizes::SMALL).expect("small");
    fund_thread(&mut kernel, 1, "base", "server");
    fund_thread(&mut kernel, 2, "base", "first");
    fund_thread(&mut kernel, 3, "base", "second");
    draw(&mut kernel, 0);
    trap(&mut kernel, 0, Action::Receive { port: 1 });
    draw(&mut kernel, 0);
    assert_eq!(trap(&mut kernel, 0, Action::Call { port: 1, number: 7 }), trapped(2, 1, Outcome::ServedBy(1), false));
    draw(&mut kernel, 300);
    assert_eq!(trap(&mut kernel, 0, Action::Call { port: 1, number: 8 }), trapped(3, 1, Outcome::Queued, false));
    draw(&mut kernel, 0);
    let received = Outcome::Received { client: 3, number: 8 };
    assert_eq!(trap(&mut kernel, 0, Action::Receive { port: 1 }), trapped(1, 1, received, true));
    assert_eq!([2, 3].map(|client| status(&kernel, client)), [Status::Served(1); 2]);
    assert_eq!(kill(&mut kernel, "server"), Reply::Done);
    assert_eq!([1, 2, 3].map(|thread| status(&kernel, thread)), [Status::Dead, Status::Ready, Status::Ready]);
    // Each used 1 of 100 ticks before its call.
    assert_eq!(draw(&mut kernel, 199), Reply::Winner { thread: 2, number: 199, total: 500, delivered: None });
    let other = kernel.event(&Event::draw(2, 0));
    assert_eq!(other, Reply::Winner { thread: 3, number: 0, total: 300, delivered: None });
}

// A killed thread waits at no port: as a receiver it takes no call, and as a caller its call is withdrawn (4.6).
#[test]
fn killed_at_a_port() {
    let mut kernel = Kernel::new(Sizes::SMALL).expect("small");
    fund_thread(&mut kernel, 1, "base", "receiver");
    fund_thread(&mut kernel, 2, "base", "caller");
    draw(&mut kernel, 0);
    assert_eq!(trap(&mut kernel, 0, Action::Receive { port: 1 }), trapped(1, 1, Outcome::Waits, false));
    assert_eq!(kill(&mut kernel, "receiver"), Reply::Done);
    draw(&mut kernel, 0);
    assert_eq!(trap(&mut kernel, 0, Action::Call { port: 1, number: 7 }), trapped(2, 1, Outcome::Queued, false));
    assert_eq!(kill(&mut kernel, "caller"), Reply::Done);
    fund_thread(&mut kernel, 4, "base", "other");
    assert_eq!(draw(&mut kernel, 3), Reply::Winner { thread: 3, number: 3, total: 4, delivered: None });
    assert_eq!(trap(&mut kernel, 0, Action::Receive { port: 1 }), trapped(3, 1, Outcome::Waits, false));
}

// A killed owner's mutex passes to the thread that has waited longest, without a lottery (6.1).
#[test]
fn killed_owner() {
    let mut kernel = Kernel::new(Sizes::SMALL).expect("small");
    for (amount, thread) in [(10, "a"), (20, "b"), (30, "c")] {
        fund_thread(&mut kernel, amount, "base", thread);
    }
    draw(&mut kernel, 0);
    trap(&mut kernel, 0, Action::Lock { mutex: 1 });
    kernel.event(&Event::expire(1)).ok().expect("thread 1");
    // The second thread waits first, and lends its 20 to the owner.
    for (number, thread) in [(10, 2), (30, 3)] {
        assert_eq!(draw(&mut kernel, number), Reply::Winner { thread, number, total: 60, delivered: None });
        assert_eq!(trap(&mut kernel, 0, Action::Lock { mutex: 1 }), trapped(thread, 1, Outcome::Waits, false));
    }
    assert_eq!(kill(&mut kernel, "a"), Reply::Done);
    assert_eq!([1, 2, 3].map(|thread| status(&kernel, thread)), [Status::Dead, Status::Ready, Status::Waiting(1)]);
    // It has what the third lends it, and used 1 of 100 ticks.
    assert_eq!(draw(&mut kernel, 4999), Reply::Winner { thread: 2, number: 4999, total: 5000, delivered: None });
    // A killed waiter gets no mutex.
    assert_eq!(kill(&mut kernel, "c"), Reply::Done);
    let unlock = Action::Unlock { mutex: 1, number: 0 };
    assert_eq!(trap(&mut kernel, 0, unlock), trapped(2, 1, Outcome::Freed, true));
}

// A thread that sleeps can be killed, and isn't woken then. A thread that has ended can't be killed.
#[test]
fn kill_refusals() {
    let mut kernel = Kernel::new(Sizes::SMALL).expect("small");
    assert_eq!(kill(&mut kernel, "a"), Reply::Refused(EventRefusal::NoThread));
    assert_eq!(kill(&mut kernel, "base"), Reply::Refused(EventRefusal::NoThread));
    fund_thread(&mut kernel, 400, "base", "a");
    draw(&mut kernel, 0);
    assert_eq!(trap(&mut kernel, 0, Action::Sleep), trapped(1, 1, Outcome::Slept, false));
    assert_eq!(kill(&mut kernel, "a"), Reply::Done);
    assert_eq!(kernel.event(&Event::wake(1)), Reply::Refused(EventRefusal::NotAsleep));
    assert_eq!(draw(&mut kernel, 0), Reply::Idle);
    assert_eq!(kill(&mut kernel, "a"), Reply::Refused(EventRefusal::DeadThread));
    let numbered =
        [1, 2, 0].map(|thread| kernel.event(&Event::kill_numbered(thread)).refusal().map(lot::Refusal::number));
    assert_eq!(numbered, [Some(12), Some(15), Some(15)]);
    command(&mut kernel, Command::Unfund { ticket: 1 });
    assert_eq!(command(&mut kernel, Command::RemoveThread { thread: 1.into() }), Reply::Done);
    assert_eq!(command(&mut kernel, Command::Kill { thread: 1.into() }), Reply::Refused(EventRefusal::NoThread));
}

// A thread that sleeps competes in no draw. It used 20 of 100 ticks, so it is woken with 5 times its weight (4.4, 4.5).
#[test]
fn sleeping() {
    let mut kernel = Kernel::new(Sizes::SMALL).expect("small");
    fund_thread(&mut kernel, 400, "base", "a");
    fund_thread(&mut kernel, 100, "base", "b");
    draw(&mut kernel, 0);
    assert_eq!(trap(&mut kernel, 19, Action::Sleep), trapped(1, 20, Outcome::Slept, false));
    let row = kernel.thread_row(1).expect("there");
    assert_eq!((row.status, row.value, row.weight, row.ticks), (Status::Asleep, 0, 0, 20));
    assert_eq!(draw(&mut kernel, 99), Reply::Winner { thread: 2, number: 99, total: 100, delivered: None });
    assert_eq!(kernel.event(&Event::Expire { processor: 1 }), Reply::Expired { thread: 2, ticks: 100 });
    assert_eq!(kernel.event(&Event::Wake { thread: 1 }), Reply::Done);
    let row = kernel.thread_row(1).expect("there");
    assert_eq!((row.status, row.value, row.weight, row.ticks), (Status::Ready, 400, 2000, 20));
    assert_eq!(draw(&mut kernel, 1999), Reply::Winner { thread: 1, number: 1999, total: 2100, delivered: None });
}

// The tickets of a thread that sleeps are inactive: the currency's other thread has all of its 200 (4.4).
#[test]
fn sleepers_tickets() {
    let mut kernel = Kernel::new(Sizes::SMALL).expect("small");
    command(&mut kernel, Command::MakeCurrency { name: name("g") });
    command(&mut kernel, Command::MakeTicket { amount: 200, currency: name("base").into() });
    command(&mut kernel, Command::Fund { ticket: 1, target: name("g").into() });
    fund_thread(&mut kernel, 2, "g", "a");
    fund_thread(&mut kernel, 1, "g", "b");
    let values = |kernel: &Kernel| [1, 2].map(|thread| kernel.thread_row(thread).expect("there").value);
    assert_eq!(draw(&mut kernel, 0), Reply::Winner { thread: 1, number: 0, total: 199, delivered: None });
    trap(&mut kernel, 0, Action::Sleep);
    assert_eq!(values(&kernel), [0, 200]);
    let row = kernel.ticket_row(2).expect("there");
    assert_eq!((row.is_active, row.value, row.target_name), (false, 0, Some(name("a"))));
    assert_eq!(kernel.event(&Event::Wake { thread: 1 }), Reply::Done);
    assert_eq!(values(&kernel), [133, 66]);
}

#[test]
fn sleep_refusals() {
    let mut kernel = Kernel::new(Sizes::SMALL).expect("small");
    let wake = |kernel: &mut Kernel, thread| kernel.event(&Event::Wake { thread }).refusal().map(lot::Refusal::number);
    fund_thread(&mut kernel, 400, "base", "a");
    assert_eq!(trap(&mut kernel, 0, Action::Sleep), Reply::Refused(EventRefusal::NotRunning));
    draw(&mut kernel, 0);
    assert_eq!(trap(&mut kernel, 100, Action::Sleep), Reply::Refused(EventRefusal::BadTicks));
    assert_eq!([1, 2, 0].map(|thread| wake(&mut kernel, thread)), [Some(24), Some(15), Some(15)]);
    assert_eq!(trap(&mut kernel, 0, Action::Exit), trapped(1, 1, Outcome::Exited, false));
    assert_eq!(kernel.event(&Event::Wake { thread: 1 }), Reply::Refused(EventRefusal::NotAsleep));
    command(&mut kernel, Command::Unfund { ticket: 1 });
    assert_eq!(command(&mut kernel, Command::RemoveThread { thread: name("a").into() }), Reply::Done);
    assert_eq!(kernel.event(&Event::Wake { thread: 1 }), Reply::Refused(EventRefusal::NoThread));
}

// A thread whose processor is taken from it is charged what it has run, and isn't compensated (4.2, 4.5).
#[test]
fn preemption() {
    let mut kernel = Kernel::new(Sizes::SMALL).expect("small");
    fund_thread(&mut kernel, 400, "base", "a");
    let preempt = |kernel: &mut Kernel, ticks| kernel.event(&Event::Preempt { processor: 1, ticks });
    draw(&mut kernel, 0);
    assert_eq!(preempt(&mut kernel, 30), Reply::Expired { thread: 1, ticks: 30 });
    assert_eq!(draw(&mut kernel, 0), Reply::Winner { thread: 1, number: 0, total: 400, delivered: None });
    assert_eq!(trap(&mut kernel, 19, Action::Lock { mutex: 1 }), trapped(1, 20, Outcome::Locked, true));
    assert_eq!(preempt(&mut kernel, 81), Reply::Refused(EventRefusal::BadTicks));
    assert_eq!(kernel.runner(1), Some(Runner { thread: 1, used: 20 }));
    assert_eq!(preempt(&mut kernel, 80), Reply::Expired { thread: 1, ticks: 80 });
    assert_eq!(preempt(&mut kernel, 0), Reply::Refused(EventRefusal::NotRunning));
    let nowhere = kernel.event(&Event::Preempt { processor: 0, ticks: 0 });
    assert_eq!(nowhere, Reply::Refused(EventRefusal::BadProcessor));
    draw(&mut kernel, 0);
    assert_eq!(preempt(&mut kernel, 0), Reply::Expired { thread: 1, ticks: 0 });
    assert_eq!(kernel.thread_row(1).map(|row| (row.ticks, row.quanta)), Some((130, 3)));
}

// A thread whose quantum ended late weighs less until it next wins, but at least 1 if it is worth something (3.4).
#[test]
fn overruns() {
    let mut kernel = Kernel::new(Sizes::SMALL).expect("small");
    fund_thread(&mut kernel, 400, "base", "a");
    let overrun = |kernel: &mut Kernel, late| kernel.event(&Event::Overrun { processor: 1, late });
    let weight = |kernel: &Kernel| kernel.thread_row(1).expect("there").weight;
    assert_eq!(overrun(&mut kernel, 0), Reply::Refused(EventRefusal::NotRunning));
    draw(&mut kernel, 0);
    assert_eq!(overrun(&mut kernel, 100), Reply::Expired { thread: 1, ticks: 200 });
    assert_eq!(draw(&mut kernel, 199), Reply::Winner { thread: 1, number: 199, total: 200, delivered: None });
    assert_eq!(kernel.event(&Event::Expire { processor: 1 }), Reply::Expired { thread: 1, ticks: 100 });
    assert_eq!(draw(&mut kernel, 399), Reply::Winner { thread: 1, number: 399, total: 400, delivered: None });
    assert_eq!(overrun(&mut kernel, 0), Reply::Expired { thread: 1, ticks: 100 });
    assert_eq!(draw(&mut kernel, 399), Reply::Winner { thread: 1, number: 399, total: 400, delivered: None });
    trap(&mut kernel, 19, Action::Lock { mutex: 1 });
    assert_eq!(overrun(&mut kernel, 50), Reply::Expired { thread: 1, ticks: 130 });
    assert_eq!(weight(&kernel), 266);
    draw(&mut kernel, 0);
    assert_eq!(overrun(&mut kernel, 4_294_967_196), Reply::Refused(EventRefusal::BadTicks));
    assert_eq!(overrun(&mut kernel, 4_294_967_195), Reply::Expired { thread: 1, ticks: 4_294_967_295 });
    assert_eq!(weight(&kernel), 1);
    let nowhere = kernel.event(&Event::Overrun { processor: 3, late: 0 });
    assert_eq!(nowhere, Reply::Refused(EventRefusal::BadProcessor));
}

#[test]
fn call_and_reply() {
    let mut kernel = Kernel::new(Sizes::SMALL).expect("small");
    fund_thread(&mut kernel, 5, "base", "s");
    fund_thread(&mut kernel, 5, "base", "c");
    draw(&mut kernel, 4);
    let waits = Reply::Trapped { thread: 1, ticks: 1, outcome: Outcome::Waits, ends: false, goes_on: false };
    assert_eq!(trap(&mut kernel, 0, Action::Receive { port: 1 }), waits);
    draw(&mut kernel, 4);
    let served = Reply::Trapped { thread: 2, ticks: 2, outcome: Outcome::ServedBy(1), ends: false, goes_on: false };
    assert_eq!(trap(&mut kernel, 1, Action::Call { port: 1, number: 41 }), served);
    assert_eq!(kernel.thread_row(2).expect("there").status, Status::Served(1));
    // The server used 1 tick of its 100, and has what its client lends it: 10 are worth 1000.
    assert_eq!(draw(&mut kernel, 5), Reply::Winner { thread: 1, number: 5, total: 1000, delivered: Some(41) });
    let replied = Reply::Trapped { thread: 1, ticks: 2, outcome: Outcome::Replied(2), ends: false, goes_on: true };
    assert_eq!(trap(&mut kernel, 1, Action::Reply { number: 42 }), replied);
    let locked = Reply::Trapped { thread: 1, ticks: 1, outcome: Outcome::Locked, ends: false, goes_on: true };
    assert_eq!(trap(&mut kernel, 0, Action::Lock { mutex: 1 }), locked);
    assert_eq!(kernel.script_of(2), Some(1));
    assert!(kernel.meter().tree_visits > 0);
}

#[test]
fn servings() {
    let mut kernel = Kernel::new(Sizes::SMALL).expect("small");
    fund_thread(&mut kernel, 10, "base", "v");
    fund_thread(&mut kernel, 20, "base", "c");
    fund_thread(&mut kernel, 30, "base", "d");
    draw(&mut kernel, 0);
    trap(&mut kernel, 0, Action::Receive { port: 1 });
    draw(&mut kernel, 0);
    trap(&mut kernel, 0, Action::Call { port: 1, number: 5 });
    let serves = Event::Draw { processor: 2, number: 0 };
    assert_eq!(kernel.event(&serves), Reply::Winner { thread: 1, number: 0, total: 3030, delivered: Some(5) });
    draw(&mut kernel, 0);
    trap(&mut kernel, 0, Action::Call { port: 1, number: 6 });
    let mut serve = |number| kernel.event(&Event::serve(2, 0, 1, number));
    let received = Outcome::RepliedThenReceived { to: 2, client: 3, number: 6 };
    assert_eq!(serve(8), Reply::Trapped { thread: 1, ticks: 1, outcome: received, ends: false, goes_on: true });
    let waits = Outcome::RepliedThenWaits(3);
    assert_eq!(serve(9), Reply::Trapped { thread: 1, ticks: 1, outcome: waits, ends: false, goes_on: false });
    assert_eq!(kernel.thread_row(1).expect("there").status, Status::Receiving(1));
}

#[test]
fn refusals() {
    let mut kernel = Kernel::new(Sizes::SMALL).expect("small");
    let none = Command::MakeTicket { amount: 0, currency: name("base").into() };
    assert_eq!(command(&mut kernel, none), Reply::Refused(EventRefusal::BadAmount));
    for (ticket, amount, why) in [
        (1, 0, EventRefusal::BadAmount),
        (1, 1 << 32, EventRefusal::BadAmount),
        (1, 1, EventRefusal::NoTicket),
        (u32::MAX, 1, EventRefusal::NoTicket),
    ] {
        assert_eq!(command(&mut kernel, Command::SetTicket { ticket, amount }), Reply::Refused(why));
    }
    assert_eq!(kernel.event(&Event::Draw { processor: 3, number: 0 }), Reply::Refused(EventRefusal::BadProcessor));
    assert_eq!(kernel.event(&Event::Expire { processor: 1 }), Reply::Refused(EventRefusal::NotRunning));
    fund_thread(&mut kernel, 1, "base", "a");
    draw(&mut kernel, 0);
    assert_eq!(trap(&mut kernel, 100, Action::Exit), Reply::Refused(EventRefusal::BadTicks));
    for (action, why) in [
        (Action::Call { port: 9, number: 0 }, TrapRefusal::NoPort),
        (Action::Reply { number: 0 }, TrapRefusal::NothingToReply),
        (Action::Lock { mutex: 9 }, TrapRefusal::NoMutex),
        (Action::Unlock { mutex: 1, number: 0 }, TrapRefusal::NotOwner),
    ] {
        let refused =
            Reply::Trapped { thread: 1, ticks: 1, outcome: Outcome::Refused(why), ends: false, goes_on: true };
        assert_eq!(trap(&mut kernel, 0, action), refused);
    }
}

#[test]
fn a_kernel_goes_to_another_thread() {
    let mut kernel = Kernel::new(Sizes::SMALL).expect("small");
    fund_thread(&mut kernel, 5, "base", "a");
    let reply = std::thread::spawn(move || draw(&mut kernel, 3)).join().expect("no panic");
    assert_eq!(reply, Reply::Winner { thread: 1, number: 3, total: 5, delivered: None });
}

#[test]
fn the_lottery_alone() {
    let drawn = winner(&[10, 2, 5, 1, 2], 15).expect("small").expect("a winner");
    assert_eq!((drawn.place, drawn.number, drawn.total), (2, 15, 20));
    assert_eq!(winner(&[0, 0], 7), Ok(None));
    assert_eq!(winner(&[], 7), Ok(None));
    assert_eq!(winner(&[u128::MAX, 1], 7), Err(Error::TooLarge));
    // The first has the numbers below 2 ^ 100, the second the 2 ^ 90 that follow.
    let drawn = winner(&[1 << 100, 1 << 90], 1 << 100).expect("no failure").expect("some weight");
    assert_eq!((drawn.place, drawn.number, drawn.total), (1, 1 << 100, (1 << 100) + (1 << 90)));
    assert_eq!(weight(400, NonZeroU32::new(20), 100), 2000);
    assert_eq!(weight(400, None, 100), 400);
    assert_eq!([200, 150].map(|used| weight(400, NonZeroU32::new(used), 100)), [200, 266]);
    assert_eq!([0, 1].map(|value| weight(value, NonZeroU32::new(1000), 100)), [0, 1]);
    let mut generator = ParkMiller::new(1).expect("a seed");
    let last = (0..10000).map(|_| generator.next_value()).last();
    assert_eq!(last, Some(1_043_618_065));
    let drawn = winner(&[10, 2, 5, 1, 2], u128::MAX).expect("small").expect("a winner");
    assert_eq!((drawn.place, drawn.number), (2, 15));
    assert_eq!(ParkMiller::new(1).expect("a seed").number(), 36_090_892_629_924);
    assert_eq!(ParkMiller::new(1).expect("a seed").wide_number(), 166_439_864_623_969_647_858_139_600_294_153);
    assert_eq!(ParkMiller::new(0), Err(Error::BadSeed));
}

#[test]
fn what_no_call_takes() {
    assert_eq!(Kernel::new(Sizes { threads: 4097, ..Sizes::SMALL }).map(|_| ()), Err(Error::BadLimits));
    assert_eq!(Name::new("a-very-long-name-"), Err(Error::LongName));
    assert_eq!(Name::new("Base"), Err(Error::BadName));
    assert_eq!(Name::new(""), Err(Error::BadName));
    assert_eq!(name("sixteen-bytes-ok").as_str(), "sixteen-bytes-ok");
}
