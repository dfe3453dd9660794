//! Runs a driver over a stream of cases and compares its outcomes with this program's.

use std::collections::BTreeMap;
use std::io::{self, BufReader, BufWriter, Write};
use std::ops::Range;
use std::process::{Child, ChildStdout, Command, Stdio};
use std::sync::mpsc::{channel, Receiver};
use std::thread::{self, JoinHandle};
use std::time::Instant;

use crate::account;
use crate::cases::{Case, Entry, Outcome, Slice};
use crate::gen::{self, Stream};
use crate::slip::Slip;
use crate::streams::broken;

/// How many cases are tried one by one to find the one that a driver died of.
const RETRIED: usize = 20_000;

/// A driver that is given the cases of a stream.
pub struct Fed<T> {
    child: Child,
    outcomes: BufReader<ChildStdout>,
    /// What the feeder found out about each case, in order. Unbounded: a driver may keep its outcomes back until
    /// it has been given many more cases, and a feeder that waited for the comparison would wait forever.
    pub told: Receiver<T>,
    feeder: JoinHandle<io::Result<()>>,
}

impl<T: Send + 'static> Fed<T> {
    /// Starts the driver and a thread that makes the cases, gives them to it and tells what is expected.
    pub fn start(
        command: &[String],
        numbers: Range<u64>,
        mut make: impl FnMut(u64) -> (Vec<Case>, T) + Send + 'static,
    ) -> io::Result<Fed<T>> {
        let mut child =
            Command::new(&command[0]).args(&command[1..]).stdin(Stdio::piped()).stdout(Stdio::piped()).spawn()?;
        let missing = || broken("the driver has no streams");
        let input = child.stdin.take().ok_or_else(missing)?;
        let output = child.stdout.take().ok_or_else(missing)?;
        let (sender, told) = channel();
        let feeder = thread::spawn(move || {
            let mut input = BufWriter::with_capacity(1 << 16, input);
            for number in numbers {
                let (cases, expected) = make(number);
                // The comparison hangs up when it has found a difference.
                if sender.send(expected).is_err() {
                    return Ok(());
                }
                for case in cases {
                    case.write(&mut input)?;
                }
            }
            input.flush()
        });
        Ok(Fed { child, outcomes: BufReader::with_capacity(1 << 16, output), told, feeder })
    }

    pub fn outcome(&mut self) -> io::Result<Outcome> {
        Outcome::read(&mut self.outcomes)
    }

    /// Lets the driver go in the middle of its work.
    pub fn abandon(self) {
        let Fed { mut child, mut outcomes, told, feeder } = self;
        drop(told);
        io::copy(&mut outcomes, &mut io::sink()).ok();
        feeder.join().ok();
        child.wait().ok();
    }

    /// Lets the driver go; says whether it ended well and wrote no more than it should.
    pub fn end(self) -> io::Result<bool> {
        let Fed { mut child, mut outcomes, told, feeder } = self;
        drop(told);
        let surplus = io::copy(&mut outcomes, &mut io::sink()).unwrap_or(0);
        let fed = feeder.join().map_err(|_| broken("the maker of cases failed"))?;
        let status = child.wait()?;
        if let Err(error) = fed {
            eprintln!("the driver stopped reading: {error}");
            return Ok(false);
        }
        if surplus > 0 {
            eprintln!("the driver wrote {surplus} bytes too many");
        }
        if !status.success() {
            eprintln!("the driver ended with {status}");
        }
        Ok(surplus == 0 && status.success())
    }
}

/// What the outcomes of a run were.
#[derive(Default)]
struct Figures {
    cases: u64,
    done: u64,
    rewritten: u64,
    marked: u64,
    /// By the refusal's number.
    refused: BTreeMap<u64, u64>,
    file_bytes: u64,
}

impl Figures {
    fn count(&mut self, expected: &Expected) {
        self.cases += 1;
        self.file_bytes += expected.files as u64;
        match expected.outcome.parts().0 {
            0 => self.done += 1,
            number => *self.refused.entry(number).or_insert(0) += 1,
        }
        let rewritten = [Slice::Table, Slice::Area].iter().any(|it| expected.entry.changed(&expected.outcome, *it));
        self.rewritten += rewritten as u64;
        self.marked += expected.entry.changed(&expected.outcome, Slice::Vectors) as u64;
    }

    fn print(&self, began: Instant) {
        println!(
            "{} cases agree: {} sound, answered, reported, moved, taken over or listed ({} with a table rewritten, {} with vectors sent), refused {:?}; \
             {} MiB of files; {:.1} s",
            self.cases,
            self.done,
            self.rewritten,
            self.marked,
            self.refused,
            self.file_bytes >> 20,
            began.elapsed().as_secs_f64()
        );
    }
}

/// Compares; true if all outcomes agree.
pub fn compare(stream: Stream, seed: u64, numbers: Range<u64>, command: &[String]) -> io::Result<bool> {
    let began = Instant::now();
    let mut figures = Figures::default();
    let mut fed = start(stream, seed, numbers.clone(), command)?;
    for number in numbers.clone() {
        let expected = match fed.told.recv() {
            Ok(expected) => expected,
            Err(_) => break,
        };
        match fed.outcome() {
            Ok(given) if given == expected.outcome => figures.count(&expected),
            Ok(given) => {
                let made = gen::make(stream, seed, number);
                account::difference(stream, seed, number, &made, &expected.outcome, &given);
                fed.abandon();
                return Ok(false);
            }
            Err(error) => {
                println!("no outcome for case {number} of seed {seed}: {error}");
                fed.end()?;
                find_fatal(stream, seed, number..numbers.end, command)?;
                return Ok(false);
            }
        }
    }
    if !fed.end()? || figures.cases != numbers.end - numbers.start {
        return Ok(false);
    }
    figures.print(began);
    Ok(true)
}

/// What is kept of each case: its entry, the length of table or area and of the vector file, and this program's outcome.
struct Expected {
    entry: Entry,
    files: usize,
    outcome: Outcome,
}

fn start(stream: Stream, seed: u64, numbers: Range<u64>, command: &[String]) -> io::Result<Fed<Expected>> {
    Fed::start(command, numbers, move |number| {
        let case = gen::make(stream, seed, number).case;
        let files = [Slice::Table, Slice::Area, Slice::Vectors].iter().map(|it| case.held(*it).len()).sum();
        let expected = Expected { entry: case.entry, files, outcome: case.outcome(Slip::NONE) };
        (vec![case], expected)
    })
}

/// A driver's last outcomes may have been lost with it, so the case it died of is looked for one by one.
fn find_fatal(stream: Stream, seed: u64, numbers: Range<u64>, command: &[String]) -> io::Result<()> {
    for number in numbers.take(RETRIED) {
        let mut fed = start(stream, seed, number..number + 1, command)?;
        if fed.outcome().is_ok() && fed.end()? {
            continue;
        }
        println!("the driver does not survive this case");
        account::case(stream, seed, number, &gen::make(stream, seed, number));
        break;
    }
    Ok(())
}
