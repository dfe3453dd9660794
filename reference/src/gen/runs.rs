//! Runs: rows of calls with the area of the table and the vector file carried along, and now and then a move of the table or a take-over of
//! a new one between them. Some take-overs are cut, and mended by a later one.

use super::areas;
use super::asks;
use super::features;
use super::made::Made;
use super::model::TableModel;
use super::peers;
use super::request::RequestModel;
use super::tables;
use super::twists;
use super::vectors::{self, model::VectorModel};
use crate::block::BLOCK;
use crate::cases::{Case, Entry, Outcome, Slice};
use crate::kinds::Command;
use crate::refuse::LEAST_BUFFER;
use crate::rng::Rng;
use crate::slip::Slip;
use crate::table::{check, Table, EDITION, EDITION_1};

/// A call of a run, and what the program does with it.
pub struct Step {
    pub made: Made,
    pub outcome: Outcome,
}

/// The files as the calls so far left them.
struct Files {
    area: Vec<u8>,
    profile: Vec<u8>,
    vectors: Vec<u8>,
    /// The latest table that the area was read as.
    table: TableModel,
}

/// Run `number` of a seed: each call finds the files as the one before left them in this program, or in one with a fault.
pub fn run(seed: u64, number: u64, slip: Slip) -> Vec<Step> {
    let mut rng = Rng::for_case(seed ^ 0x7777, number);
    let mut files = Files::new(&mut rng);
    let mut steps = Vec::new();
    for _ in 0..rng.between(10, 40) {
        if rng.once_in(30) {
            files.cut(&mut rng);
        }
        let made = match rng.below(24) {
            0 | 1 => files.moved(&mut rng),
            2 | 3 => files.taken(&mut rng),
            // Mended soon, so that most calls of a run are answered.
            4..=11 if files.is_cut() => files.taken(&mut rng),
            _ => files.call(&mut rng),
        };
        let outcome = made.case.outcome(slip);
        files.carry(&made.case, &outcome);
        steps.push(Step { made, outcome });
    }
    steps
}

impl Files {
    fn new(rng: &mut Rng) -> Files {
        let size = rng.between(1, 6);
        let sound = tables::sound(rng, size);
        let area = areas::of(rng, &sound.model, 2);
        let vectors = vectors::model::encode(&told_apart(vectors::of_people(rng, &sound.model)));
        Files { table: TableModel::of(Table(&area)), area, profile: sound.profile, vectors }
    }

    /// Mostly a MAR; now and then with a twist, and rarely with too short a buffer.
    fn call(&mut self, rng: &mut Rng) -> Made {
        let mut notes = vec!["a run"];
        let mut request = match rng.below(3) {
            0 => asks::any(rng, &mut self.table.clone()),
            _ => asks::authentication(rng, &self.table),
        };
        if rng.once_in(8) {
            notes.push(twist(rng, &mut request));
        }
        let buffer = if rng.once_in(30) { LEAST_BUFFER - 1 } else { LEAST_BUFFER };
        let files = (self.area.clone(), self.profile.clone(), self.vectors.clone());
        let stated = peers::any(rng);
        if rng.once_in(10) {
            notes.push("628s");
            features::ask(rng, &mut request, stated.features);
        }
        let case = Case::decide(rng.byte(), request.encode(), files.0, files.1, files.2, buffer, stated);
        Made { case, notes, damaged: None }
    }

    /// A move of the table cut out of the area, mostly to the edition that it does not have; with sets, or with what is past it, it may be
    /// refused.
    fn moved(&self, rng: &mut Rng) -> Made {
        let is_forward = (self.area[EDITION] == EDITION_1) != rng.once_in(8);
        let issue = is_forward.then(|| tables::issue(rng) >> rng.below(2));
        let whole = rng.once_in(6) || self.is_cut();
        let end = if whole { self.area.len() } else { BLOCK * (self.table.records.len() + 1) };
        let case = Case::moved(rng.byte(), self.area[..end].to_vec(), self.profile.clone(), issue);
        Made { case, notes: vec!["a run", "a move"], damaged: None }
    }

    /// A take-over of a changed table, mostly with an issue number that none is found against, and that the area has room for.
    fn taken(&mut self, rng: &mut Rng) -> Made {
        let mut new = self.successor(rng);
        if rng.once_in(6) {
            new.issue = Some(tables::issue(rng));
        }
        let case = Case::take(rng.byte(), self.area.clone(), new.encode(), self.profile.clone());
        Made { case, notes: vec!["a run", "a take-over"], damaged: None }
    }

    /// The power goes in the middle of a take-over; the area is longer then, if it needs to be.
    fn cut(&mut self, rng: &mut Rng) {
        let fresh = self.successor(rng).encode();
        self.area.resize(self.area.len().max(fresh.len()), 0);
        areas::cut(rng, &mut self.area, &fresh);
        self.read_again();
    }

    fn successor(&self, rng: &mut Rng) -> TableModel {
        let mut new = areas::successor(rng, &self.table, &self.profile, &self.area);
        let room = self.area.len() / BLOCK;
        if !rng.once_in(8) {
            new.records.truncate(room.saturating_sub(1));
        }
        new
    }

    /// What a call did; a move was given the front of the area alone.
    fn carry(&mut self, case: &Case, outcome: &Outcome) {
        let slice = if case.entry == Entry::Take { Slice::Area } else { Slice::Table };
        let front = case.after(outcome, slice).expect("a change that lies in the area");
        self.area[..front.len()].copy_from_slice(&front);
        if case.entry == Entry::Decide {
            self.vectors = case.after(outcome, Slice::Vectors).expect("a change that lies in the vector file");
        }
        self.read_again();
    }

    fn is_cut(&self) -> bool {
        check(&self.area, self.profile.len()).is_err()
    }

    fn read_again(&mut self) {
        if !self.is_cut() {
            self.table = TableModel::of(Table(&self.area));
        }
    }
}

/// Each gets a RAND of its own, so that what is sent tells its block.
fn told_apart(mut vectors: Vec<VectorModel>) -> Vec<VectorModel> {
    for (number, vector) in vectors.iter_mut().enumerate() {
        vector.rand_and_autn[..4].copy_from_slice(&(number as u32).to_be_bytes());
    }
    vectors
}

fn twist(rng: &mut Rng, request: &mut RequestModel) -> &'static str {
    match request.command == Command::MultimediaAuth.code() && rng.coin() {
        true => twists::twist_item(rng, request),
        false => twists::twist_once(rng, request),
    }
}
