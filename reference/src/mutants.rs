//! Each deliberate fault against the true program: after how many cases is it noticed?

use std::ops::Range;

use crate::gen::{make, Stream, STREAMS};
use crate::slip::{faults, is_plains, Listed, Slip, SILENT};

/// A fault, and which case of which stream shows it.
type Tried = (&'static Listed, Option<(Stream, u64)>);

/// Prints for each fault after how many cases one shows it; true if every fault is noticed, and none of those that no case can show.
pub fn mutants(seed: u64, numbers: Range<u64>) -> bool {
    let mut noticed: Vec<Tried> = faults().map(|it| (it, None)).collect();
    let mut heard: Vec<Tried> = SILENT.iter().map(|it| (it, None)).collect();
    for (tried, number) in (1..).zip(numbers) {
        for stream in STREAMS {
            let case = make(stream, seed, number).case;
            let truly = case.outcome(Slip::NONE);
            for (it, place) in noticed.iter_mut().chain(&mut heard) {
                // The plain engine's cases are those of `calls`: only what it alone does wrong shows there first.
                let is_asked = (stream == Stream::Plain) == is_plains(it.fault);
                if is_asked && place.is_none() && case.outcome(Slip::of(it.fault)) != truly {
                    *place = Some((stream, tried));
                }
            }
        }
        if noticed.iter().all(|(_, found)| found.is_some()) {
            break;
        }
    }
    for (it, found) in noticed.iter().chain(&heard) {
        println!("{} {:30} {}", told(*found), it.name, it.what);
    }
    let shown = |all: &[Tried]| all.iter().filter(|(_, found)| found.is_some()).count();
    println!("{} of {} faults noticed", shown(&noticed), noticed.len());
    println!("{} of {} noticed that no case can show", shown(&heard), heard.len());
    shown(&noticed) == noticed.len() && shown(&heard) == 0
}

fn told(found: Option<(Stream, u64)>) -> String {
    match found {
        Some((stream, tried)) => format!("{:7} {tried:>8}", stream.name()),
        None => format!("{:>16}", "not noticed"),
    }
}
