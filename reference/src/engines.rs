//! Both engines on the outcomes of a driver: the plain one returns and leaves what the quick one does, and that is what this program does.

use std::collections::BTreeMap;
use std::io;
use std::ops::Range;
use std::time::Instant;

use crate::account;
use crate::cases::{Case, Entry, Outcome, Slice};
use crate::compare::Fed;
use crate::gen::{self, Stream};
use crate::message::{Message, HEADER};
use crate::slip::Slip;

/// What is kept of each case: at how many places AVPs begin, and this program's outcome.
struct Expected {
    places: usize,
    outcome: Outcome,
}

/// The case of the quick engine, and that of the plain one.
fn both(seed: u64, number: u64) -> [Case; 2] {
    let plain = gen::make(Stream::Plain, seed, number).case;
    [Case { entry: Entry::Decide, ..plain.clone() }, plain]
}

/// True if both engines of the driver have this program's outcome of every case.
pub fn compare(seed: u64, numbers: Range<u64>, command: &[String]) -> io::Result<bool> {
    let began = Instant::now();
    let mut fed = Fed::start(command, numbers.clone(), move |number| {
        let [quick, plain] = both(seed, number);
        let request = quick.held(Slice::Request);
        let places = if request.len() < HEADER { 0 } else { Message(&request).avps().places() };
        let expected = Expected { places, outcome: quick.outcome(Slip::NONE) };
        (vec![quick, plain], expected)
    })?;
    let (mut agreed, mut answered, mut rewritten, mut sent) = (0u64, 0u64, 0u64, 0u64);
    let mut refused: BTreeMap<u64, u64> = BTreeMap::new();
    let (mut most, mut with_most) = (0, 0u64);
    let count = numbers.end - numbers.start;
    for number in numbers {
        let expected = match fed.told.recv() {
            Ok(expected) => expected,
            Err(_) => break,
        };
        let (quick, plain) = match (fed.outcome(), fed.outcome()) {
            (Ok(quick), Ok(plain)) => (quick, plain),
            _ => {
                println!("no outcome of one engine for case {number} of seed {seed}");
                account::case(Stream::Plain, seed, number, &gen::make(Stream::Plain, seed, number));
                fed.end()?;
                return Ok(false);
            }
        };
        if plain != quick || quick != expected.outcome {
            println!("the two engines {}", if plain == quick { "are alike" } else { "differ" });
            for (stream, given) in [(Stream::Calls, &quick), (Stream::Plain, &plain)] {
                if *given != expected.outcome {
                    account::difference(
                        stream,
                        seed,
                        number,
                        &gen::make(stream, seed, number),
                        &expected.outcome,
                        given,
                    );
                }
            }
            fed.abandon();
            return Ok(false);
        }
        agreed += 1;
        match plain.parts().0 {
            0 => answered += 1,
            number => *refused.entry(number).or_insert(0) += 1,
        }
        rewritten += Entry::Plain.changed(&plain, Slice::Table) as u64;
        sent += Entry::Plain.changed(&plain, Slice::Vectors) as u64;
        if plain.parts().0 == 0 && expected.places >= most {
            with_most = if expected.places == most { with_most + 1 } else { 1 };
            most = expected.places;
        }
    }
    if !fed.end()? || agreed != count {
        return Ok(false);
    }
    println!(
        "{count} calls agree, of the plain engine, the quick one and this program: {answered} answered ({rewritten} with a table rewritten, \
         {sent} with vectors sent; {with_most} with {most} places), refused {refused:?}; {:.1} s",
        began.elapsed().as_secs_f64()
    );
    Ok(true)
}
