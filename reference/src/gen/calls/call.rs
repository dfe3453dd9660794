//! A call in the making, and right ones.

use crate::cases::Case;
use crate::gen::areas;
use crate::gen::asks;
use crate::gen::made::Made;
use crate::gen::peers;
use crate::gen::request::RequestModel;
use crate::gen::tables::{self, Sound};
use crate::gen::vectors::{self, model::VectorModel};
use crate::kinds::{Command, Dialect, Kind};
use crate::refuse::LEAST_BUFFER;
use crate::rng::Rng;
use crate::stated::Stated;

/// A case in the making.
pub struct Call {
    pub sound: Sound,
    pub vectors: Vec<VectorModel>,
    pub request: RequestModel,
    pub buffer_length: usize,
    pub stated: Stated,
    pub notes: Vec<&'static str>,
}

/// A right request of this interface over a table of few records, now and then of many or none.
pub fn right(rng: &mut Rng, dialect: Dialect) -> Call {
    let size = match rng.below(1000) {
        0..=9 => tables::many(rng),
        10..=37 => 0,
        _ => rng.between(1, 12),
    };
    right_over(rng, dialect, size)
}

pub fn right_over(rng: &mut Rng, dialect: Dialect, records: usize) -> Call {
    let mut sound = tables::sound(rng, records);
    let request = asks::of(rng, dialect, &mut sound.model);
    Call::new(rng, sound, request)
}

impl Call {
    /// The vector file suits a MAR; other requests have a small one, or none.
    pub fn new(rng: &mut Rng, sound: Sound, request: RequestModel) -> Call {
        let asked = request.place(Kind::UserName).filter(|_| request.command == Command::MultimediaAuth.code());
        let asked = asked.map(|place| &request.pieces[place].data[..]);
        let vectors = vectors::beside(rng, &sound.model, asked);
        let stated = peers::any(rng);
        Call { sound, vectors, request, buffer_length: LEAST_BUFFER, stated, notes: vec![] }
    }

    pub fn noted(mut self, note: &'static str) -> Call {
        self.notes.push(note);
        self
    }

    pub fn finish(self, rng: &mut Rng) -> Made {
        let bytes = self.request.encode();
        self.with_request(rng, bytes)
    }

    pub fn with_request(self, rng: &mut Rng, request: Vec<u8>) -> Made {
        let table = areas::of(rng, &self.sound.model, 5);
        let (profile, buffer) = (self.sound.profile, self.buffer_length);
        let case = match self.request.dialect {
            Dialect::Cx => {
                let vectors = vectors::model::encode(&self.vectors);
                Case::decide(rng.byte(), request, table, profile, vectors, buffer, self.stated)
            }
            Dialect::Sh => Case::sh_decide(rng.byte(), request, table, profile, buffer, self.stated.peer),
        };
        Made { case, notes: self.notes, damaged: None }
    }
}
