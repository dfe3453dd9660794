//! The commands; README.md says what each does.

use std::io::{self, BufReader, BufWriter, Read, Write};
use std::ops::Range;
use std::process::ExitCode;

use reference::cases::Case;
use reference::compare;
use reference::demand3;
use reference::engines;
use reference::gen::{self, Stream};
use reference::kinds::Dialect;
use reference::mutants;
use reference::neighbours;
use reference::program;
use reference::runs;
use reference::show;
use reference::slip::{self, Slip};
use reference::stats;

const USAGE: &str = "\
reference check                                             check `table` against `profile`, and `vectors`
reference answer                                            answer the request on standard input
reference show                                              an answer on standard input, in words
reference gen      --kind K --seed S [--from F] --count N   write cases
reference outcomes [--fault NAME]                           read cases, write outcomes
reference compare  --kind K --seed S [--from F] --count N -- DRIVER [ARGUMENT ...]
reference stats    --kind K --seed S [--from F] --count N   histogram
reference faults                                            list the deliberate faults
reference mutants  --seed S [--from F] --count N            whether each deliberate fault is noticed
kinds: tables, vectors, calls, reports, moves, takes, lists, voicemail, rows, plain;
compare and stats alone: neighbours, neighbours-voicemail; compare alone: demand3, demand3-voicemail, runs, breaches";

fn main() -> ExitCode {
    let arguments: Vec<String> = std::env::args().skip(1).collect();
    match run(&arguments) {
        Ok(true) => ExitCode::SUCCESS,
        Ok(false) => ExitCode::FAILURE,
        Err(message) => {
            eprintln!("reference: {message}");
            ExitCode::from(2)
        }
    }
}

/// True for success, false for a difference or an empty row.
fn run(arguments: &[String]) -> Result<bool, String> {
    let (name, rest) = arguments.split_first().ok_or(USAGE)?;
    let options = Options::parse(rest)?;
    match name.as_str() {
        "check" => {
            println!("{}", program::check()?);
            Ok(true)
        }
        "answer" => {
            let answer = program::answer(&standard_input()?)?;
            io::stdout().write_all(&answer).map_err(told)?;
            Ok(true)
        }
        "show" => {
            print!("{}", show::show(&standard_input()?));
            Ok(true)
        }
        "gen" => write_cases(options.stream()?, options.seed, options.numbers()?).map_err(told),
        "outcomes" => write_outcomes(options.slip).map_err(told),
        "compare" => {
            if options.command.is_empty() {
                return Err("compare needs -- and a driver".to_string());
            }
            let (seed, numbers, command) = (options.seed, options.numbers()?, &options.command);
            match options.kind.as_deref() {
                Some("demand3") => demand3::compare(Stream::Calls, seed, numbers, command),
                Some("demand3-voicemail") => demand3::compare(Stream::Voicemail, seed, numbers, command),
                Some("neighbours") => neighbours::compare(Dialect::Cx, seed, numbers, command),
                Some("neighbours-voicemail") => neighbours::compare(Dialect::Sh, seed, numbers, command),
                Some("breaches") => neighbours::breaches(seed, numbers, command),
                Some("plain") => engines::compare(seed, numbers, command),
                Some("runs") => runs::compare(seed, numbers, command),
                _ => compare::compare(options.stream()?, seed, numbers, command),
            }
            .map_err(told)
        }
        "stats" => {
            let (seed, numbers) = (options.seed, options.numbers()?);
            Ok(match options.kind.as_deref() {
                Some("neighbours") => neighbours::stats(Dialect::Cx, seed, numbers),
                Some("neighbours-voicemail") => neighbours::stats(Dialect::Sh, seed, numbers),
                _ => stats::stats(options.stream()?, seed, numbers),
            })
        }
        "mutants" => Ok(mutants::mutants(options.seed, options.numbers()?)),
        "faults" => {
            slip::faults().for_each(|it| println!("{:30} {}", it.name, it.what));
            Ok(true)
        }
        _ => Err(USAGE.to_string()),
    }
}

fn standard_input() -> Result<Vec<u8>, String> {
    let mut bytes = Vec::new();
    io::stdin().read_to_end(&mut bytes).map_err(told)?;
    Ok(bytes)
}

fn told(error: io::Error) -> String {
    error.to_string()
}

struct Options {
    kind: Option<String>,
    seed: u64,
    from: u64,
    count: Option<u64>,
    slip: Slip,
    command: Vec<String>,
}

impl Options {
    fn parse(arguments: &[String]) -> Result<Options, String> {
        let mut options = Options { kind: None, seed: 0, from: 0, count: None, slip: Slip::NONE, command: vec![] };
        let mut rest = arguments.iter();
        while let Some(name) = rest.next() {
            if name == "--" {
                options.command = rest.cloned().collect();
                break;
            }
            let value = rest.next().ok_or_else(|| format!("{name} needs a value"))?;
            let number = || value.parse::<u64>().map_err(|_| format!("{name} needs a number"));
            match name.as_str() {
                "--kind" => options.kind = Some(value.clone()),
                "--seed" => options.seed = number()?,
                "--from" => options.from = number()?,
                "--count" => options.count = Some(number()?),
                "--fault" => {
                    let fault = slip::by_name(value).ok_or_else(|| format!("no fault {value}"))?;
                    options.slip = Slip::of(fault);
                }
                _ => return Err(format!("{name} is not known\n{USAGE}")),
            }
        }
        Ok(options)
    }

    fn stream(&self) -> Result<Stream, String> {
        let name = self.kind.as_ref().ok_or("--kind is needed")?;
        Stream::by_name(name).ok_or_else(|| format!("no kind {name}"))
    }

    /// The numbers of the cases. A run of none would show nothing, so their count is needed.
    fn numbers(&self) -> Result<Range<u64>, String> {
        let count = self.count.filter(|count| *count > 0).ok_or("--count is needed, 1 or more")?;
        let end = self.from.checked_add(count).ok_or("--from and --count are too great")?;
        Ok(self.from..end)
    }
}

fn write_cases(stream: Stream, seed: u64, numbers: Range<u64>) -> io::Result<bool> {
    let mut to = BufWriter::with_capacity(1 << 16, io::stdout().lock());
    for number in numbers {
        gen::make(stream, seed, number).case.write(&mut to)?;
    }
    to.flush()?;
    Ok(true)
}

fn write_outcomes(slip: Slip) -> io::Result<bool> {
    let mut from = BufReader::with_capacity(1 << 16, io::stdin().lock());
    let mut to = BufWriter::with_capacity(1 << 16, io::stdout().lock());
    while let Some(case) = Case::read(&mut from)? {
        case.outcome(slip).write(&mut to)?;
    }
    to.flush()?;
    Ok(true)
}
