//! The lottery by itself, without a kernel.

use crate::ffi::{self, Wide};
use crate::generated::CallStatus;
use crate::Error;
use core::iter::FusedIterator;
use core::num::NonZeroU32;

/// The weight of a thread with this value in a draw. The compensation is the ticks of its quantum that it had used when
/// it yielded, blocked or went to sleep before the quantum's end, or the sum of the quantum and the ticks by which it
/// ended late. With a compensation the weight is the value times the quantum, divided by the compensation and rounded
/// down, but at least 1 if the value is. Otherwise the weight is the value.
///
/// ```
/// use std::num::NonZeroU32;
///
/// assert_eq!(lot::weight(400, NonZeroU32::new(20), 100), 2000);
/// assert_eq!(lot::weight(400, None, 100), 400);
/// // A quantum of 100 that ended 60 ticks late.
/// assert_eq!(lot::weight(400, NonZeroU32::new(160), 100), 250);
/// ```
#[must_use]
pub fn weight(value: u64, compensation: Option<NonZeroU32>, quantum: u32) -> u128 {
    let mut weight = Wide::default();
    // SAFETY: the weight is whole.
    unsafe { ffi::lot_weight(value, compensation.map_or(0, NonZeroU32::get), quantum, &mut weight) };
    weight.number()
}

/// The winner of a lottery.
#[derive(Clone, Copy, Debug, PartialEq, Eq, Hash)]
pub struct Drawn {
    /// The winner's index among the weights.
    pub place: usize,
    /// The drawn number, below the total.
    pub number: u128,
    /// The sum of the weights.
    pub total: u128,
}

impl Drawn {
    fn of(drawn: ffi::Drawn) -> Drawn {
        Drawn { place: index_of(drawn.place), number: drawn.number.number(), total: drawn.total.number() }
    }
}

fn index_of(place: u64) -> usize {
    usize::try_from(place).expect("an index of a slice")
}

/// Holds a lottery over the weights with this number, any 128 bits. The winner is the first index whose running sum
/// is greater than the number modulo the sum of the weights. Returns `None` if the weights sum to 0. It allocates
/// nothing.
///
/// ```
/// let drawn = lot::winner(&[10, 2, 5, 1, 2], 15)?.expect("some weight");
/// assert_eq!((drawn.place, drawn.number, drawn.total), (2, 15, 20));
/// assert_eq!(lot::winner(&[0, 0], 7)?, None);
/// # Ok::<(), lot::Error>(())
/// ```
///
/// # Errors
///
/// [`Error::TooLarge`] if the weights sum to 2 ^ 128 or more.
pub fn winner(weights: &[u128], number: u128) -> Result<Option<Drawn>, Error> {
    let mut drawn = ffi::Drawn::default();
    // SAFETY: the pointer and the count are those of one slice, whose numbers lie in memory as `Wide`s do; the number
    // and `drawn` are whole, and the three are apart.
    let status = unsafe { ffi::lot_winner(weights.as_ptr().cast(), weights.len(), &Wide::of(number), &mut drawn) };
    if CallStatus::of(status) == CallStatus::NoWinner {
        return Ok(None);
    }
    ffi::done(status)?;
    Ok(Some(Drawn::of(drawn)))
}

/// The generator of Park and Miller: each value is 16807 times the one before, modulo 2147483647. Its values are 1 to
/// 2147483646.
///
/// As an iterator it never ends, and its items are those of [`number`](ParkMiller::number).
///
/// ```
/// use lot::ParkMiller;
///
/// let numbers: Vec<u64> = ParkMiller::new(1)?.take(2).collect();
/// assert_eq!(numbers, [36_090_892_629_924, 3_484_614_493_785_666_169]);
/// # Ok::<(), lot::Error>(())
/// ```
#[derive(Clone, Debug, PartialEq, Eq, Hash)]
pub struct ParkMiller {
    value: u32,
}

impl ParkMiller {
    /// A generator with this seed as its value, 1 to 2147483646.
    ///
    /// # Errors
    ///
    /// [`Error::BadSeed`] if the seed is 0 or above 2147483646.
    pub fn new(seed: u32) -> Result<ParkMiller, Error> {
        let mut generator = ffi::Generator::default();
        // SAFETY: the generator is whole.
        ffi::done(unsafe { ffi::lot_generator_new(seed, &mut generator) })?;
        Ok(ParkMiller { value: generator.value })
    }

    /// Advances to the next value and returns it: 1 to 2147483646.
    pub fn next_value(&mut self) -> u32 {
        let mut value = 0;
        // SAFETY: both are whole and apart.
        self.go_on(|generator| unsafe { ffi::lot_generator_next(generator, &mut value) });
        value
    }

    /// Returns the number drawn from the next two values, 0 to 4611686009837453315, and advances to the second.
    pub fn number(&mut self) -> u64 {
        let mut number = 0;
        // SAFETY: both are whole and apart.
        self.go_on(|generator| unsafe { ffi::lot_generator_number(generator, &mut number) });
        number
    }

    /// Returns the wide number drawn from the next four values, below 2 ^ 124, and advances to the fourth.
    pub fn wide_number(&mut self) -> u128 {
        let mut number = Wide::default();
        // SAFETY: both are whole and apart.
        self.go_on(|generator| unsafe { ffi::lot_generator_wide_number(generator, &mut number) });
        number.number()
    }

    /// Makes a call that changes the generator's value. It can't fail, since the value is always in range.
    fn go_on(&mut self, call: impl FnOnce(&mut ffi::Generator) -> u32) {
        let mut generator = ffi::Generator { value: self.value };
        ffi::must_be_done(call(&mut generator));
        self.value = generator.value;
    }
}

impl Iterator for ParkMiller {
    type Item = u64;

    fn next(&mut self) -> Option<u64> {
        Some(self.number())
    }

    fn size_hint(&self) -> (usize, Option<usize>) {
        (usize::MAX, None)
    }
}

impl FusedIterator for ParkMiller {}
