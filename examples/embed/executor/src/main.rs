//! A task executor that picks the task to poll next by lottery, by the archive's `winner`: a task that is ready
//! weighs its tickets, and one that waits weighs nothing.

use lot::ParkMiller;
use std::cell::Cell;
use std::future::{poll_fn, Future};
use std::pin::Pin;
use std::rc::Rc;
use std::sync::atomic::{AtomicBool, Ordering::Relaxed};
use std::sync::Arc;
use std::task::{Context, Poll, Wake};

/// Whether a task has something to do. Its waker sets it.
struct Ready(AtomicBool);

impl Wake for Ready {
    fn wake(self: Arc<Self>) {
        self.0.store(true, Relaxed);
    }
}

struct Task {
    tickets: u128,
    ready: Arc<Ready>,
    future: Pin<Box<dyn Future<Output = ()>>>,
}

impl Task {
    fn weight(&self) -> u128 {
        if self.ready.0.load(Relaxed) {
            self.tickets
        } else {
            0
        }
    }

    fn poll(&mut self) -> Poll<()> {
        self.ready.0.store(false, Relaxed);
        let waker = Arc::clone(&self.ready).into();
        self.future.as_mut().poll(&mut Context::from_waker(&waker))
    }
}

struct Executor {
    tasks: Vec<Task>,
    weights: Vec<u128>,
    numbers: ParkMiller,
}

impl Executor {
    fn new(seed: u32) -> Result<Executor, lot::Error> {
        Ok(Executor { tasks: Vec::new(), weights: Vec::new(), numbers: ParkMiller::new(seed)? })
    }

    fn spawn(&mut self, tickets: u128, future: impl Future<Output = ()> + 'static) {
        let ready = Arc::new(Ready(AtomicBool::new(true)));
        self.tasks.push(Task { tickets, ready, future: Box::pin(future) });
    }

    /// Polls the winners of lotteries until no task is ready.
    fn run(&mut self) -> Result<(), lot::Error> {
        loop {
            self.weights.clear();
            self.weights.extend(self.tasks.iter().map(Task::weight));
            let Some(drawn) = lot::winner(&self.weights, self.numbers.wide_number())? else {
                return Ok(());
            };
            if self.tasks[drawn.place].poll().is_ready() {
                self.tasks.swap_remove(drawn.place);
            }
        }
    }
}

/// Gives way to the other tasks once.
async fn give_way() {
    let mut given = false;
    poll_fn(|context| {
        if given {
            return Poll::Ready(());
        }
        given = true;
        context.waker().wake_by_ref();
        Poll::Pending
    })
    .await;
}

fn main() -> Result<(), lot::Error> {
    let mut executor = Executor::new(1)?;
    let counts: Rc<[Cell<u32>; 3]> = Rc::default();
    for (task, tickets) in [3, 2, 1].into_iter().enumerate() {
        let counts = Rc::clone(&counts);
        executor.spawn(tickets, async move {
            while counts[0].get() < 30_000 {
                counts[task].set(counts[task].get() + 1);
                give_way().await;
            }
        });
    }
    executor.run()?;
    println!("polls with 3, 2 and 1 tickets: {}, {}, {}", counts[0].get(), counts[1].get(), counts[2].get());
    Ok(())
}
