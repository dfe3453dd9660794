//! A month in the making: the files as they came, and as the requests so far left them.

use crate::gen::areas;
use crate::gen::damage;
use crate::gen::model::{RecordModel, TableModel};
use crate::gen::peers;
use crate::gen::sets;
use crate::gen::tables::{self, Sound};
use crate::gen::vectors::{self, model};
use crate::refuse::LEAST_BUFFER;
use crate::rng::Rng;
use crate::serve::{parts, serve};
use crate::slip::Slip;
use crate::stated::Stated;
use crate::table::{Table, LONGEST_SERVER_NAME};

/// Table, profile and vector file, as they are lent.
#[derive(Clone)]
pub struct Files {
    pub table: Vec<u8>,
    pub profile: Vec<u8>,
    pub vectors: Vec<u8>,
}

pub struct Month {
    /// As they came.
    pub came: Files,
    /// As the requests so far left them.
    now: Files,
    buffer: Vec<u8>,
    /// Of all peers.
    pub stated: Stated,
    pub requests: Vec<u8>,
    /// The pieces so far, to be sent again.
    pub earlier: Vec<Vec<u8>>,
    /// How long the answer to each of them is; 0 if it was refused.
    pub answers: Vec<usize>,
}

impl Files {
    /// Now and then damaged.
    pub fn spoil(&mut self, rng: &mut Rng, notes: &mut Vec<&'static str>) {
        if rng.once_in(16) {
            notes.push("damaged table");
            let model = TableModel::of(Table(&self.table));
            let (bytes, profile) = (std::mem::take(&mut self.table), std::mem::take(&mut self.profile));
            let mut subject = damage::Subject { model, bytes, profile };
            damage::damage(rng, &mut subject, &mut Vec::new());
            (self.table, self.profile) = (subject.bytes, subject.profile);
        }
        if rng.once_in(16) {
            notes.push("damaged vectors");
            vectors::damage::of_any(rng, &mut self.vectors, &mut Vec::new());
        }
    }
}

impl Month {
    /// Sound files of so many records, now and then with something past the table.
    pub fn new(rng: &mut Rng, records: usize) -> Month {
        let sound = tables::sound(rng, records);
        let vectors = match records {
            0 => vec![],
            _ => vectors::of_people(rng, &sound.model),
        };
        let most = if rng.coin() { vectors.len() } else { 6 };
        let vectors = &vectors[..vectors.len().min(most)];
        let table = areas::of(rng, &sound.model, 4);
        let stated = peers::known(rng);
        Month::over(Files { table, profile: sound.profile, vectors: model::encode(vectors) }, stated)
    }

    /// Some hundred records of one subscription, all of which a removal can leave; no vectors.
    pub fn of_one(rng: &mut Rng) -> Month {
        let Sound { mut model, profile } = tables::sound(rng, 1);
        let server_name = vec![b's'; rng.between(1, LONGEST_SERVER_NAME)];
        let pattern = RecordModel { server_name, ..model.records[0].clone() };
        let record =
            |n| RecordModel { public: format!("{n:03}").into_bytes(), state: 1 + n as u8 % 2, ..pattern.clone() };
        model.records = (0..rng.between(250, 520)).map(record).collect();
        sets::settle(&mut model.records);
        let stated = peers::known(rng);
        Month::over(Files { table: model.encode(), profile, vectors: vec![] }, stated)
    }

    fn over(came: Files, stated: Stated) -> Month {
        let (now, buffer) = (came.clone(), vec![0; LEAST_BUFFER]);
        Month { came, now, buffer, stated, requests: Vec::new(), earlier: Vec::new(), answers: Vec::new() }
    }

    /// The table as it is now.
    pub fn table(&self) -> TableModel {
        TableModel::of(Table(&self.now.table))
    }

    /// Adds a request, and does what it does.
    pub fn add(&mut self, piece: Vec<u8>) {
        let Files { table, profile, vectors } = &mut self.now;
        let (word, _) = serve(&piece, table, profile, vectors, &mut self.buffer, self.stated, Slip::NONE);
        let (number, _, length) = parts(word);
        self.answers.push(if number == 0 { length as usize } else { 0 });
        self.requests.extend(&piece);
        self.earlier.push(piece);
    }
}
