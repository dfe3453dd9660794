//! Requests with 628s: of what the set holds or does not, with M or without, beside one another and beside faults.

use super::call::{right, Call};
use crate::gen::asks;
use crate::gen::features::{ask, put, supported, unsupported};
use crate::gen::made::Made;
use crate::gen::peers;
use crate::gen::tables;
use crate::gen::twists;
use crate::kinds::{Command, Dialect, Kind};
use crate::rng::Rng;

pub const NOTES: [&str; 6] = [
    "628s within the set",
    "628s outside the set",
    "628s without M",
    "628s beside one at fault",
    "628s and a twist",
    "628s and a fault of length",
];

pub fn case(rng: &mut Rng) -> Made {
    let mut call = if rng.once_in(5) { assignment_at_fault(rng) } else { right(rng, Dialect::Cx) };
    call.stated = peers::known(rng);
    let (set, request) = (call.stated.features, &mut call.request);
    // Those that the request came with ask for anything.
    request.pieces.retain(|piece| !piece.is(Kind::SupportedFeatures));
    let which = rng.below(NOTES.len());
    let many = rng.between(1, 3);
    match which {
        0 => (0..many).for_each(|_| {
            let (asked, marked) = (supported(rng, set), rng.below(3) > 0);
            put(rng, request, asked, marked);
        }),
        1 => {
            let asked = unsupported(rng, set);
            put(rng, request, asked, true);
            for _ in 1..many {
                let asked = if rng.coin() { supported(rng, set) } else { unsupported(rng, set) };
                let marked = rng.coin();
                put(rng, request, asked, marked);
            }
        }
        2 => (0..many).for_each(|_| {
            let asked = if rng.once_in(3) { supported(rng, set) } else { unsupported(rng, set) };
            put(rng, request, asked, false);
        }),
        3 => {
            let broken = twists::broken_features(rng);
            request.insert(rng, broken);
            if rng.coin() {
                ask(rng, request, set);
            }
        }
        4 => {
            ask(rng, request, set);
            call.notes.push(twists::twist_once(rng, request));
        }
        _ => {
            ask(rng, request, set);
            let at = rng.below(request.pieces.len());
            request.pieces[at].told_length = Some(*rng.pick(&[0, 4, 7, 0xFF_FFFF]));
        }
    }
    call.noted(NOTES[which]).finish(rng)
}

/// A SAR without identity, or with two, where one is needed: a fault of the decision.
fn assignment_at_fault(rng: &mut Rng) -> Call {
    let size = rng.between(1, 6);
    let sound = tables::sound(rng, size);
    let publics: Vec<Vec<u8>> = sound.model.records.iter().map(|record| record.public.clone()).collect();
    let identities = match rng.coin() {
        true => vec![],
        false => vec![rng.pick(&publics).clone(), rng.pick(&publics).clone()],
    };
    let asked_type = rng.below(4) as u32;
    let mut own = asks::assignment(rng, asked_type, identities, None, b"s".to_vec());
    let request = asks::surround(rng, Command::ServerAssignment, &mut own);
    Call::new(rng, sound, request)
}
