//! What the proved program `measure` does, in plain Rust: the measure of its speed.
//!
//!     measure                    how many turns an operation takes, by demand, where the head moves and where not
//!     measure turn SIZE COUNT    COUNT writes of the last key of a ring of SIZE keys
//!     measure begin COUNT        COUNT begins of an insert in a full table

#[path = "../plain/index.rs"]
mod index;

use index::{Berth, Board, Fault, Operation, Progress};
use std::env;
use std::error::Error;

const PLACES: usize = 4096;
const SESSION: usize = 0;
const KEYS: u16 = 256;
const OPERATIONS: u32 = 20000;
const SEED: u64 = 1;
const USAGE: &str = "arguments: none, turn SIZE COUNT, or begin COUNT, with a SIZE from 1 to 4096";

/// With berth number 0 a key's hash is its harbour, so the ranks go up with the harbours.
fn key(harbour: u16) -> Berth {
    Berth { harbour, berth: 0 }
}

/// One bucket, so all keys are in one ring.
struct Ring(Board<Berth, u32, 1, PLACES>);

impl Ring {
    /// A ring of the harbours below `size`. They go in from the highest, which stays the head: each later one falls
    /// right behind it, so that it takes two turns, however long the ring.
    fn filled(size: u16) -> Result<Ring, Fault> {
        let mut ring = Ring(Board::new(key(0), 0));
        for harbour in (0..size).rev() {
            ring.operate(Operation::Insert, harbour)?;
        }
        Ok(ring)
    }

    fn begin(&mut self, operation: Operation, harbour: u16) -> Result<(), Fault> {
        self.0.begin(SESSION, operation, key(harbour), harbour.into())
    }

    /// A whole operation, from its begin to its answer. Says how many turns it took.
    fn operate(&mut self, operation: Operation, harbour: u16) -> Result<u32, Fault> {
        self.begin(operation, harbour)?;
        let mut turns = 1;
        while self.0.turn(SESSION)? != Progress::Ended {
            turns += 1;
        }
        self.0.collect(SESSION)?;
        Ok(turns)
    }
}

struct Dice(u64);

impl Dice {
    fn below(&mut self, bound: u16) -> u16 {
        self.0 = self.0.wrapping_mul(6364136223846793005).wrapping_add(1442695040888963407);
        ((self.0 >> 32) as u32 % u32::from(bound)) as u16
    }
}

#[derive(Clone, Copy)]
enum Demand {
    Even,
    FewHot,
    OneHot,
}

impl Demand {
    fn name(self) -> &'static str {
        match self {
            Demand::Even => "even demand",
            Demand::FewHot => "a few hot keys",
            Demand::OneHot => "one hot key",
        }
    }

    fn draw(self, dice: &mut Dice) -> u16 {
        match (self, dice.below(4)) {
            (Demand::FewHot, 0 | 1) => 63 + 128 * dice.below(2),
            (Demand::FewHot, 2) => 15 + 32 * dice.below(8),
            (Demand::OneHot, 0..=2) => 127,
            _ => dice.below(KEYS),
        }
    }
}

fn write_last(ring: &mut Ring, size: u16, count: u32) -> Result<u64, Fault> {
    let last = size.saturating_sub(2);
    let mut turns = 0;
    for _ in 0..count {
        turns += u64::from(ring.operate(Operation::Write, last)?);
    }
    Ok(turns)
}

fn begin_refused(ring: &mut Ring, count: u32) -> u32 {
    let mut refused = 0;
    for _ in 0..count {
        if ring.begin(Operation::Insert, PLACES as u16) == Err(Fault::NoPlace) {
            refused += 1;
        }
    }
    refused
}

fn ask(demand: Demand, operation: Operation) -> Result<u32, Fault> {
    let mut ring = Ring::filled(KEYS)?;
    let mut dice = Dice(SEED);
    let mut turns = 0;
    for _ in 0..OPERATIONS {
        turns += ring.operate(operation, demand.draw(&mut dice))?;
    }
    Ok(turns)
}

fn print_turns(demand: Demand, operation: Operation, label: &str) -> Result<(), Fault> {
    let mean = 100 * u64::from(ask(demand, operation)?) / u64::from(OPERATIONS);
    println!("{}, {label}: {}.{:02} turns", demand.name(), mean / 100, mean % 100);
    Ok(())
}

fn number(word: Option<String>) -> Result<u32, Box<dyn Error>> {
    Ok(word.ok_or(USAGE)?.parse()?)
}

fn ring_size(word: Option<String>) -> Result<u16, Box<dyn Error>> {
    match number(word)? {
        size @ 1..=4096 => Ok(size as u16),
        _ => Err(USAGE.into()),
    }
}

fn main() -> Result<(), Box<dyn Error>> {
    let mut words = env::args().skip(1);
    let Some(mode) = words.next() else {
        for demand in [Demand::Even, Demand::FewHot, Demand::OneHot] {
            print_turns(demand, Operation::Find, "find, head moves")?;
            print_turns(demand, Operation::Write, "write, head stays")?;
        }
        return Ok(());
    };
    match mode.as_str() {
        "turn" => {
            let size = ring_size(words.next())?;
            let count = number(words.next())?;
            println!("{} turns", write_last(&mut Ring::filled(size)?, size, count)?);
        }
        "begin" => {
            let count = number(words.next())?;
            println!("{} refused", begin_refused(&mut Ring::filled(PLACES as u16)?, count));
        }
        _ => return Err(USAGE.into()),
    }
    Ok(())
}
