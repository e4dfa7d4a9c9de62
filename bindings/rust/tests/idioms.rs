//! What a programmer in Rust expects of the crate: errors, conversions, readers by `&self`, iterators, threads.

use lot::{
    Action, Error, Event, EventRefusal, Kernel, Name, Outcome, ParkMiller, Refusal, Reply, Sizes, Status, TrapRefusal,
};
use std::collections::{HashMap, HashSet};
use std::sync::{Arc, Mutex};
use std::thread;

fn name(text: &str) -> Name {
    text.parse().expect("a name")
}

/// Threads 1, 2, .. with these amounts of base.
fn kernel_of(amounts: &[u64]) -> Kernel {
    let mut kernel = Kernel::new(Sizes::default()).expect("the default sizes");
    for (amount, letter) in amounts.iter().zip(["a", "b", "c", "d"]) {
        kernel.event(&Event::make_funded(*amount, Name::BASE, Some(name(letter)), 1)).ok().expect("made");
    }
    kernel
}

#[test]
fn the_archive_has_the_crate_s_version() {
    let version = lot::version();
    let text = format!("{}.{}.{}", version >> 16, version >> 8 & 255, version & 255);
    assert_eq!(text, env!("CARGO_PKG_VERSION"));
}

#[test]
fn the_default_sizes() {
    let sizes = Sizes::default();
    assert_eq!((sizes.tickets, sizes.currencies, sizes.threads), (64, 16, 16));
    assert_eq!((sizes.ports, sizes.mutexes, sizes.processors), (2, 2, 2));
    assert_eq!((sizes.scripts, sizes.quantum, sizes.unit), (1, 100, 1));
    assert_eq!(kernel_of(&[]).sizes(), sizes);
}

#[test]
fn names_are_read() {
    let wanted = Name::new("a-1_b").expect("a name");
    assert_eq!("a-1_b".parse(), Ok(wanted));
    assert_eq!(Name::try_from("a-1_b"), Ok(wanted));
    assert_eq!(Name::try_from(&b"a-1_b"[..]), Ok(wanted));
    assert_eq!(Name::try_from("base"), Ok(Name::BASE));
    for bad in ["", "1a", "-a", "A", "a b", "\u{e9}", "a\0"] {
        assert_eq!(bad.parse::<Name>(), Err(Error::BadName), "{bad:?}");
    }
    assert_eq!("sixteen-bytes-ok".parse::<Name>().map(|name| name.as_str().len()), Ok(16));
    assert_eq!("seventeen-bytes-a".parse::<Name>(), Err(Error::LongName));
    assert_eq!(Name::try_from(&[b'a', 0xff][..]), Err(Error::BadName));
}

#[test]
fn plain_names_are_read() {
    for byte in 0..128_u8 {
        let text = char::from(byte).to_string();
        let is_plain = (33..=126).contains(&byte);
        assert_eq!(Name::plain(&text).is_ok_and(|name| name == text.as_str()), is_plain, "{byte}");
        assert_eq!(Name::new(&text).is_ok(), byte.is_ascii_lowercase(), "{byte}");
    }
    assert_eq!(Name::plain("base"), Ok(Name::BASE));
    assert_eq!(Name::plain("Sixteen/bytes=ok").map(|name| name.to_string()), Ok("Sixteen/bytes=ok".into()));
    assert_eq!(Name::plain("Seventeen/bytes=a"), Err(Error::LongName));
    for bad in ["", "a b", "\u{e9}", "a\0", "a\n"] {
        assert_eq!(Name::plain(bad), Err(Error::BadName), "{bad:?}");
    }
}

#[test]
fn names_are_as_their_texts() {
    let short = name("ab");
    assert_eq!((format!("{short}"), format!("{short:?}"), format!("{short:>4}|")), texts("ab", "\"ab\"", "  ab|"));
    assert_eq!(AsRef::<str>::as_ref(&short), "ab");
    assert_eq!(short, "ab");
    let mut sorted = [name("b"), name("abc"), name("ab"), name("a-"), name("a")];
    sorted.sort();
    assert_eq!(sorted, ["a", "a-", "ab", "abc", "b"]);
    // A map by names is asked by text, so the two must hash alike.
    let numbers = HashMap::from([(name("first"), 1), (name("second"), 2)]);
    assert_eq!(numbers.get("second"), Some(&2));
    assert!(HashSet::from([name("a")]).contains("a"));
}

fn texts(shown: &str, debugged: &str, padded: &str) -> (String, String, String) {
    (shown.into(), debugged.into(), padded.into())
}

#[test]
fn an_event_s_refusal_is_an_error() {
    let mut kernel = kernel_of(&[10]);
    let refusal = kernel.event(&Event::draw(3, 0)).ok().expect_err("processor 3 of 2");
    assert_eq!(refusal, Refusal::Event(EventRefusal::BadProcessor));
    assert_eq!(refusal, EventRefusal::BadProcessor.into());
    assert_eq!((refusal.number(), EventRefusal::BadProcessor.number()), (20, 20));
    let error: Box<dyn std::error::Error + Send + Sync> = refusal.into();
    assert_eq!(error.to_string(), "no processor has the number");
}

#[test]
fn a_trap_s_refusal_is_an_error() {
    let mut kernel = kernel_of(&[10]);
    kernel.event(&Event::draw(1, 0)).ok().expect("thread 1");
    // 99 ticks of work and the trap's own are the whole quantum.
    let reply = kernel.event(&Event::unlock(1, 99, 1, 0));
    let outcome = Outcome::Refused(TrapRefusal::NotOwner);
    assert_eq!(reply, Reply::Trapped { thread: 1, ticks: 100, outcome, ends: true, goes_on: false });
    assert_eq!(reply.refusal(), Some(Refusal::Trap(TrapRefusal::NotOwner)));
    let refusal = reply.ok().expect_err("it owns no mutex");
    assert_eq!((refusal.number(), refusal.to_string().as_str()), (34, "the thread doesn't own the mutex"));
}

#[test]
fn a_reply_that_is_no_refusal_is_itself() {
    let mut kernel = kernel_of(&[10]);
    let winner = Reply::Winner { thread: 1, number: 4, total: 10, delivered: None };
    assert_eq!(kernel.event(&Event::draw(1, 4)).ok(), Ok(winner));
    let yielded = kernel.event(&Event::yield_(1, 0));
    assert_eq!((yielded.refusal(), yielded.ok()), (None, Ok(yielded)));
    assert_eq!(kernel_of(&[]).event(&Event::draw(1, 4)).ok(), Ok(Reply::Idle));
}

#[test]
fn a_run_says_how_many_were_done() {
    let mut kernel = kernel_of(&[10, 5]);
    let draw = Event::draw(1, 12);
    let stopped = kernel.run(&[draw, Event::expire(1), Event::expire(1), draw]).expect_err("nobody runs");
    let winner = Reply::Winner { thread: 2, number: 12, total: 15, delivered: None };
    assert_eq!(stopped.replies, [winner, Reply::Expired { thread: 2, ticks: 100 }]);
    assert_eq!((stopped.done(), stopped.reply), (2, Reply::Refused(EventRefusal::NotRunning)));
    assert_eq!(stopped.to_string(), "the event after 2 that were done is refused: no thread runs on the processor");
    let source = std::error::Error::source(&stopped).expect("the refusal");
    assert_eq!(source.to_string(), "no thread runs on the processor");
    // The last draw wasn't given: nobody runs.
    assert_eq!(kernel.runner(1), None);
    assert_eq!(kernel.run(&[draw]), Ok(vec![winner]));
    assert_eq!(kernel.run(&[]), Ok(vec![]));
}

#[test]
fn a_run_stops_at_a_refused_trap() {
    let mut kernel = kernel_of(&[10]);
    let lock = Event::lock(1, 0, 9);
    let stopped = kernel.run(&[Event::draw(1, 0), lock, Event::expire(1)]).expect_err("mutex 9 of 2");
    let outcome = Outcome::Refused(TrapRefusal::NoMutex);
    assert_eq!((stopped.done(), stopped.refusal), (1, Refusal::Trap(TrapRefusal::NoMutex)));
    assert_eq!(stopped.reply, Reply::Trapped { thread: 1, ticks: 1, outcome, ends: false, goes_on: true });
    assert_eq!(kernel.runner(1).map(|runner| runner.used), Some(1));
}

#[test]
fn replies_come_one_by_one() {
    let mut kernel = kernel_of(&[10]);
    let events = [Event::expire(1), Event::draw(1, 3), Event::expire(1)];
    let mut replies = kernel.replies(&events);
    assert_eq!(replies.len(), 3);
    assert_eq!(replies.next(), Some(Reply::Refused(EventRefusal::NotRunning)));
    assert_eq!(replies.next(), Some(Reply::Winner { thread: 1, number: 3, total: 10, delivered: None }));
    assert_eq!(replies.len(), 1);
    drop(replies);
    // The third event wasn't asked for, so thread 1 still runs.
    assert_eq!(kernel.runner(1).map(|runner| runner.thread), Some(1));
}

#[test]
fn readers_share_a_kernel() {
    let mut kernel = kernel_of(&[10, 5]);
    kernel.event(&Event::make_currency(name("alice"))).ok().expect("made");
    kernel.event(&Event::make_ticket(7, name("alice"))).ok().expect("made");
    kernel.event(&Event::remove_ticket(3)).ok().expect("removed");
    kernel.event(&Event::make_ticket(8, name("alice"))).ok().expect("made");
    let (first, second) = (&kernel, &kernel);
    let rows: Vec<_> = first.threads().zip(second.threads()).collect();
    assert_eq!(rows.len(), 2);
    for (one, other) in rows {
        assert_eq!(one, other);
    }
    let threads: Vec<_> = kernel.threads().map(|(number, row)| (number, row.name, row.value, row.status)).collect();
    let named = [(1, Some(name("a")), 10, Status::Ready), (2, Some(name("b")), 5, Status::Ready)];
    assert_eq!(threads, named);
    // Ticket 3 is removed, and its number isn't used again.
    let tickets: Vec<_> = kernel.tickets().map(|(number, row)| (number, row.amount, row.is_active)).collect();
    assert_eq!(tickets, [(1, 10, true), (2, 5, true), (4, 8, false)]);
    let currencies: Vec<_> = kernel.currencies().map(|(number, row)| (number, row.name, row.issued)).collect();
    assert_eq!(currencies, [(0, Name::BASE, 2), (1, name("alice"), 1)]);
    assert_eq!((kernel.ticket_count(), kernel.currency_count(), kernel.script_of(2)), (4, 2, Some(1)));
}

#[test]
fn a_row_changes_no_answer() {
    let (mut read, mut unread) = (kernel_of(&[10, 5]), kernel_of(&[10, 5]));
    let before = read.meter();
    assert_eq!(read.thread_row(2).map(|row| row.weight), Some(5));
    // The row computed the values of two threads, each from one ticket.
    assert!(read.meter().ticket_reads > before.ticket_reads);
    assert_eq!(read.event(&Event::draw(1, 12)), unread.event(&Event::draw(1, 12)));
}

// Threads read a settled kernel at once, and see what the kernel itself shows.
#[test]
fn threads_read_a_settled_kernel() {
    let mut kernel = kernel_of(&[10, 5]);
    kernel.event(&Event::make_currency(name("alice"))).ok().expect("made");
    kernel.event(&Event::draw(2, 12)).ok().expect("thread 2");
    kernel.event(&Event::make_ticket(7, name("alice"))).ok().expect("made");
    let wanted: (Vec<_>, Vec<_>, Vec<_>) =
        (kernel.threads().collect(), kernel.tickets().collect(), kernel.currencies().collect());
    let settled = kernel.settle();
    thread::scope(|scope| {
        for _ in 0..4 {
            scope.spawn(|| {
                let seen: (Vec<_>, Vec<_>, Vec<_>) =
                    (settled.threads().collect(), settled.tickets().collect(), settled.currencies().collect());
                assert_eq!(seen, wanted);
                assert_eq!((settled.thread_row(9), settled.script_of(1)), (None, Some(1)));
                assert_eq!(settled.runner(2).map(|runner| runner.thread), Some(2));
            });
        }
    });
    kernel.event(&Event::expire(2)).ok().expect("it ran");
    assert_eq!(kernel.settle().thread_row(2).map(|row| row.status), Some(Status::Ready));
}

#[test]
fn a_kernel_moves_to_another_thread_and_back() {
    let mut kernel = kernel_of(&[10, 5]);
    let mut kernel = thread::spawn(move || {
        kernel.event(&Event::draw(1, 9)).ok().expect("thread 1");
        kernel
    })
    .join()
    .expect("no panic");
    assert_eq!(kernel.runner(1).map(|runner| runner.thread), Some(1));
    assert_eq!(kernel.event(&Event::expire(1)), Reply::Expired { thread: 1, ticks: 100 });
}

#[test]
fn threads_share_a_kernel_behind_a_lock() {
    let shared = Arc::new(Mutex::new(kernel_of(&[10, 5])));
    let draws = [1, 2].map(|processor| {
        let shared = Arc::clone(&shared);
        thread::spawn(move || {
            shared.lock().expect("no panic").event(&Event::draw(processor, 0)).ok().expect("a winner")
        })
    });
    for draw in draws {
        assert!(matches!(draw.join().expect("no panic"), Reply::Winner { .. }));
    }
    let kernel = shared.lock().expect("no panic");
    let mut running: Vec<u32> =
        [1, 2].iter().filter_map(|processor| Some(kernel.runner(*processor)?.thread)).collect();
    running.sort_unstable();
    assert_eq!(running, [1, 2]);
}

#[test]
fn a_generator_is_an_iterator() {
    // By hand: 16807 and 282475249 are the first two values of seed 1, and 16806 * 2147483646 + 282475248 the first
    // number.
    let mut generator = ParkMiller::new(1).expect("a seed");
    assert_eq!(generator.next(), Some(36_090_892_629_924));
    let mut other = ParkMiller::new(1).expect("a seed");
    assert_eq!((other.next_value(), other.next_value()), (16_807, 282_475_249));
    assert_eq!(generator, other);
    assert_eq!(generator.by_ref().take(3).collect::<Vec<_>>(), [other.number(), other.number(), other.number()]);
    assert_eq!(generator.size_hint(), (usize::MAX, None));
}

#[test]
fn constructors_make_the_events() {
    let mut kernel = Kernel::new(Sizes::default()).expect("the default sizes");
    let events = [
        Event::make_currency(name("alice")),
        Event::make_ticket(100, Name::BASE),
        Event::fund(1, name("alice")),
        Event::make_thread(Some(name("t")), 1),
        Event::make_funded(10, name("alice"), Some(name("u")), 1),
        Event::set_ticket(2, 30),
        Event::unfund(1),
        Event::remove_ticket(1),
        Event::unfund(2),
        Event::remove_ticket(2),
        Event::remove_currency(name("alice")),
        Event::draw(1, 9),
        Event::make_funded(10, Name::BASE, Some(name("v")), 1),
        Event::draw(1, 9),
        Event::exit(1, 0),
        Event::unfund(3),
        Event::remove_thread(name("v")),
        Event::make_funded(10, Name::BASE, Some(name("v")), 1),
        Event::draw(1, 9),
        Event::sleep(1, 49),
        Event::wake(4),
        Event::draw(1, 19),
        Event::preempt(1, 7),
        Event::draw(1, 9),
        Event::overrun(1, 100),
        Event::draw(1, 4),
        Event::kill(name("v")),
        Event::make_funded(10, Name::BASE, Some(name("w")), 1),
        Event::kill_numbered(5),
    ];
    let wanted = [
        Reply::Currency(1),
        Reply::Ticket(1),
        Reply::Done,
        Reply::Thread(1),
        Reply::Funded { ticket: 2, thread: 2 },
        Reply::Done,
        Reply::Done,
        Reply::Done,
        Reply::Done,
        Reply::Done,
        Reply::Done,
        Reply::Idle,
        Reply::Funded { ticket: 3, thread: 3 },
        Reply::Winner { thread: 3, number: 9, total: 10, delivered: None },
        Reply::Trapped { thread: 3, ticks: 1, outcome: Outcome::Exited, ends: false, goes_on: false },
        Reply::Done,
        Reply::Done,
        Reply::Funded { ticket: 4, thread: 4 },
        Reply::Winner { thread: 4, number: 9, total: 10, delivered: None },
        Reply::Trapped { thread: 4, ticks: 50, outcome: Outcome::Slept, ends: false, goes_on: false },
        Reply::Done,
        Reply::Winner { thread: 4, number: 19, total: 20, delivered: None },
        Reply::Expired { thread: 4, ticks: 7 },
        Reply::Winner { thread: 4, number: 9, total: 10, delivered: None },
        Reply::Expired { thread: 4, ticks: 200 },
        Reply::Winner { thread: 4, number: 4, total: 5, delivered: None },
        Reply::Done,
        Reply::Funded { ticket: 5, thread: 5 },
        Reply::Done,
    ];
    assert_eq!(kernel.run(&events).expect("no refusal"), wanted);
}

// Events, replies and rows have numbers of tickets of one type.
#[test]
fn a_thread_is_buried_with_its_ticket() {
    let mut kernel = Kernel::new(Sizes::default()).expect("the default sizes");
    let made = kernel.event(&Event::make_funded(10, Name::BASE, None, 1)).ok().expect("made");
    let Reply::Funded { ticket, thread } = made else { unreachable!("a thread and its ticket are made") };
    let burial = [
        Event::kill_numbered(thread),
        Event::unfund(ticket),
        Event::remove_ticket(ticket),
        Event::remove_thread_numbered(thread),
    ];
    assert_eq!(kernel.run(&burial), Ok(vec![Reply::Done; 4]));
    assert_eq!((kernel.ticket_row(ticket), kernel.thread_row(thread)), (None, None));
}

#[test]
fn each_trap_has_a_constructor() {
    let traps = [
        (Event::yield_(1, 2), Action::Yield),
        (Event::call(1, 2, 3, 4), Action::Call { port: 3, number: 4 }),
        (Event::receive(1, 2, 3), Action::Receive { port: 3 }),
        (Event::reply(1, 2, 4), Action::Reply { number: 4 }),
        (Event::serve(1, 2, 3, 4), Action::Serve { port: 3, number: 4 }),
        (Event::lock(1, 2, 5), Action::Lock { mutex: 5 }),
        (Event::unlock(1, 2, 5, 6), Action::Unlock { mutex: 5, number: 6 }),
        (Event::exit(1, 2), Action::Exit),
        (Event::sleep(1, 2), Action::Sleep),
    ];
    for (made, action) in traps {
        assert_eq!(made, Event::trap(1, 2, action));
        assert_eq!(made, Event::Trap { processor: 1, ticks: 2, action });
    }
}

#[test]
fn errors_are_sentences() {
    let sizes = Sizes { threads: 0, ..Sizes::default() };
    let error = Kernel::new(sizes).expect_err("no threads");
    assert_eq!((error, error.to_string().as_str()), (Error::BadLimits, "a size of the kernel is out of its bounds"));
    assert_eq!(ParkMiller::new(0).expect_err("0").to_string(), "the seed is 0 or above 2147483646");
}
