//! A million events of a kernel with eight threads, as a caller in Rust makes them: `bindings/check` compares what it
//! prints, and the time that it takes, with callers in C and Python that make the same events.
//!
//!     many_events [THREADS [ROUNDS]]
//!
//! A round is two events. THREADS is a multiple of 8. Half of the threads are alice's, who has two thirds of base.

use lot::{Event, Kernel, Name, ParkMiller, Refusal, Reply, Sizes};
use std::env;
use std::error::Error;

/// A user's currency, funded by the ticket with this number.
fn make_user(kernel: &mut Kernel, ticket: u32, user: Name, amount: u64) -> Result<(), Refusal> {
    kernel.event(&Event::make_currency(user)).ok()?;
    kernel.event(&Event::make_ticket(amount, Name::BASE)).ok()?;
    kernel.event(&Event::fund(ticket, user)).ok()?;
    Ok(())
}

/// A draw, and then the winner's expiry, or its yield if its number is even. The winner, 0 if there is none.
fn play_round(kernel: &mut Kernel, number: u128) -> Result<u32, Refusal> {
    let Reply::Winner { thread, .. } = kernel.event(&Event::draw(1, number)).ok()? else {
        return Ok(0);
    };
    let end = if thread % 2 == 0 { Event::yield_(1, 19) } else { Event::expire(1) };
    kernel.event(&end).ok()?;
    Ok(thread)
}

/// The argument at this place, or what stands for it.
fn argument(place: usize, otherwise: u32) -> Result<u32, Box<dyn Error>> {
    Ok(env::args().nth(place).map_or(Ok(otherwise), |given| given.parse())?)
}

fn main() -> Result<(), Box<dyn Error>> {
    let (threads, rounds) = (argument(1, 8)?, argument(2, 500_000)?);
    let sizes = Sizes {
        tickets: threads + 2,
        threads,
        currencies: 2,
        ports: 0,
        mutexes: 0,
        processors: 1,
        ..Sizes::default()
    };
    let mut kernel = Kernel::new(sizes)?;
    let (alice, bob) = ("alice".parse()?, "bob".parse()?);
    make_user(&mut kernel, 1, alice, 250 * u64::from(threads))?;
    make_user(&mut kernel, 2, bob, 125 * u64::from(threads))?;
    for i in 0..threads / 2 {
        let amount = 100 * u64::from(i % 4 + 1);
        kernel.event(&Event::make_funded(amount, alice, Some(format!("a{i}").parse()?), 1)).ok()?;
        kernel.event(&Event::make_funded(amount, bob, Some(format!("b{i}").parse()?), 1)).ok()?;
    }
    let mut sum = 0;
    for (round, number) in (0..rounds).zip(ParkMiller::new(1)?) {
        sum += u64::from(play_round(&mut kernel, number.into())?) * u64::from(round % 5 + 1);
    }
    println!("{} events, sum {sum}", 2 * rounds);
    Ok(())
}
