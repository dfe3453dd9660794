//! Runs on the outcomes of a driver: each call's is this program's, and no vector is ever sent twice.

use std::collections::BTreeSet;
use std::io;
use std::ops::Range;
use std::time::Instant;

use crate::account;
use crate::block::{mend, word_at, BLOCK};
use crate::cases::{Case, Entry, Outcome, Slice};
use crate::compare::Fed;
use crate::gen::{self, Made, Step};
use crate::kinds::{Kind, SIP_AUTHENTICATE, VENDOR};
use crate::message::{Avp, Message};
use crate::slip::Slip;
use crate::vectors::vector;

/// What was sent in a run so far. It knows nothing of decisions: it goes by the answers and what became of the file.
#[derive(Default)]
struct Ledger {
    sent: BTreeSet<usize>,
}

impl Ledger {
    /// Enters a call: what it sent was never sent and unused, is marked by a lawful change, and nothing else changed.
    fn enter(&mut self, case: &Case, outcome: &Outcome) -> Result<(), String> {
        // A move and a take-over are not given the vectors.
        if case.entry != Entry::Decide {
            return Ok(());
        }
        let before = case.held(Slice::Vectors);
        let mut lawful = before.to_vec();
        for block in sent(case, outcome)? {
            let vector = lawful.get_mut(block * BLOCK..(block + 1) * BLOCK).ok_or("what is in no block was sent")?;
            if !self.sent.insert(block) {
                return Err(format!("block {block} was sent twice"));
            }
            if vector[vector::USED] != 0 {
                return Err(format!("block {block} was used before it was sent"));
            }
            vector[vector::USED] = 1;
            mend(vector);
        }
        match case.after(outcome, Slice::Vectors) {
            Some(after) if after == lawful => Ok(()),
            _ => Err("the vector file is not as it was but for the marks of what was sent".to_string()),
        }
    }
}

/// The blocks that an answer sends, by their RANDs.
fn sent(case: &Case, outcome: &Outcome) -> Result<Vec<usize>, String> {
    let (number, _, length) = outcome.parts();
    if number != 0 {
        return Ok(vec![]);
    }
    let buffer = case.after(outcome, Slice::Buffer).ok_or("a change lies outside the buffer")?;
    let answer = buffer.get(..length as usize).ok_or("the answer is longer than the buffer")?;
    let all = Message(answer).avps().sound(Slip::NONE);
    let items = all.iter().filter(|avp| is_of(avp, Kind::SipAuthDataItem.code()));
    items.map(|item| rand(item).ok_or_else(|| "an item has no RAND".to_string())).collect()
}

fn rand(item: &Avp) -> Option<usize> {
    let members = item.members().sound(Slip::NONE);
    let rand = members.iter().find(|member| is_of(member, SIP_AUTHENTICATE))?.data;
    (rand.len() >= 4).then(|| word_at(rand, 0) as usize)
}

fn is_of(avp: &Avp, code: u32) -> bool {
    avp.vendor == Some(VENDOR) && avp.code == code
}

/// True if the driver's outcomes of all runs agree, and their ledgers are in order.
pub fn compare(seed: u64, numbers: Range<u64>, command: &[String]) -> io::Result<bool> {
    let began = Instant::now();
    let mut fed = Fed::start(command, numbers.clone(), move |number| {
        let steps = gen::run(seed, number, Slip::NONE);
        (steps.iter().map(|step| step.made.case.clone()).collect(), steps)
    })?;
    let (mut runs, mut calls, mut moves, mut takes) = (0u64, 0u64, 0u64, 0u64);
    let (mut sending, mut vectors) = (0u64, 0u64);
    for number in numbers.clone() {
        let steps: Vec<Step> = match fed.told.recv() {
            Ok(steps) => steps,
            Err(_) => break,
        };
        let mut ledger = Ledger::default();
        for (place, Step { made, outcome }) in steps.iter().enumerate() {
            let given = match fed.outcome() {
                Ok(given) => given,
                Err(error) => {
                    println!("no outcome for call {place} of run {number} of seed {seed}: {error}");
                    fed.end()?;
                    return Ok(false);
                }
            };
            let before = ledger.sent.len();
            let fault = ledger.enter(&made.case, &given).err();
            if fault.is_some() || given != *outcome {
                tell(seed, number, place, made, outcome, &given, fault);
                fed.abandon();
                return Ok(false);
            }
            calls += 1;
            moves += [Entry::Forward, Entry::Back].contains(&made.case.entry) as u64;
            takes += (made.case.entry == Entry::Take) as u64;
            sending += (ledger.sent.len() > before) as u64;
        }
        runs += 1;
        vectors += ledger.sent.len() as u64;
    }
    if !fed.end()? || runs != numbers.end - numbers.start {
        return Ok(false);
    }
    println!(
        "{runs} runs of {calls} calls agree: {moves} moves, {takes} take-overs, {sending} sent {vectors} vectors, none twice; {:.1} s",
        began.elapsed().as_secs_f64()
    );
    Ok(true)
}

fn tell(seed: u64, number: u64, place: usize, made: &Made, own: &Outcome, given: &Outcome, fault: Option<String>) {
    println!("call {place} of run {number} of seed {seed} (--kind runs --seed {seed} --from {number} --count 1)");
    account::slices(made);
    if let Some(fault) = fault {
        println!("  {fault}");
    }
    account::outcomes(&made.case, own, given);
}

#[cfg(test)]
mod tests {
    use super::*;
    use crate::slip::Fault;

    /// What the ledgers of so many runs say, if one is out of order.
    fn fault_in(slip: Slip, runs: u64) -> Option<String> {
        (0..runs).find_map(|number| {
            let mut ledger = Ledger::default();
            let steps = gen::run(9, number, slip);
            steps.iter().find_map(|step| ledger.enter(&step.made.case, &step.outcome).err())
        })
    }

    #[test]
    fn the_ledgers_of_this_program_are_in_order() {
        assert_eq!(fault_in(Slip::NONE, 40), None);
    }

    /// The files carried along as the faulty program leaves them: the ledger alone tells.
    #[test]
    fn a_ledger_tells_of_faulty_programs() {
        for (fault, told) in [
            (Fault::UsedSentAgain, "sent twice"),
            (Fault::NoVectorMarked, "not as it was"),
            (Fault::LastVectorMarked, "not as it was"),
            (Fault::NextVectorsMarked, "not as it was"),
            (Fault::VectorCheckWordStays, "not as it was"),
            (Fault::SentVectorWiped, "not as it was"),
            (Fault::MarkedThoughOtherScheme, "not as it was"),
            (Fault::FaultyRequestUsesVector, "not as it was"),
            (Fault::RewritingFreesVectors, "not as it was"),
            (Fault::AutnBeforeRand, "in no block"),
        ] {
            let said = fault_in(Slip::of(fault), 40).unwrap_or_default();
            assert!(said.contains(told), "{fault:?}: {said}");
        }
    }
}
