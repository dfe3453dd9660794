//! Whether a line leaves room for those that must follow it: public identities rise, and there is a last one.

use super::columns::is_listable;
use crate::slip::{Fault, Slip};
use crate::table::LONGEST_IDENTITY;

/// The bytes that a name may have, and how long it may be.
struct Names {
    letters: u64,
    last: u8,
    longest: usize,
}

impl Names {
    fn of(slip: Slip) -> Names {
        let (first, last, longest) = match slip.0 {
            Some(Fault::RoomWithoutSpace) => (33, 126, LONGEST_IDENTITY),
            Some(Fault::RoomOfAnyBytes) => (0, 255, LONGEST_IDENTITY),
            Some(Fault::RoomOf127Bytes) => (32, 126, LONGEST_IDENTITY - 1),
            _ => (32, 126, LONGEST_IDENTITY),
        };
        Names { letters: u64::from(last - first) + 1, last, longest }
    }

    /// How many names begin with so many given bytes, those bytes themselves among them.
    fn beginning_with(&self, length: usize) -> u64 {
        let mut of_length = 1u64;
        let mut all = 0u64;
        for _ in length..=self.longest {
            all = all.saturating_add(of_length);
            of_length = of_length.saturating_mul(self.letters);
        }
        all
    }
}

/// How many names that can be listed stand above this one; more than there are numbers for are as many as there are numbers for.
pub fn names_above(name: &[u8], slip: Slip) -> u64 {
    let names = Names::of(slip);
    // Those that begin with it, and those that begin with its first bytes and have a greater one then.
    let longer = match slip.0 {
        Some(Fault::RoomWithoutLonger) => 0,
        _ => names.beginning_with(name.len()).saturating_sub(1),
    };
    let greater = name.iter().enumerate().map(|(place, byte)| {
        u64::from(names.last.saturating_sub(*byte)).saturating_mul(names.beginning_with(place + 1))
    });
    greater.fold(longer, u64::saturating_add)
}

/// Whether so many names find their places above this one.
pub fn has_room(name: &[u8], followers: u64, slip: Slip) -> bool {
    // Only a faulty program comes here with another name.
    if !name.iter().all(|byte| is_listable(*byte)) {
        return true;
    }
    let above = names_above(name, slip);
    match slip.0 {
        Some(Fault::RoomNotAsked) => true,
        Some(Fault::RoomOf128Alone) => name.len() < LONGEST_IDENTITY || above >= followers,
        Some(Fault::RoomOf127Alone) => name.len() == LONGEST_IDENTITY || above >= followers,
        Some(Fault::RoomCountsItself) => above + 1 >= followers,
        Some(Fault::RoomForOneMore) => above > followers || followers == 0,
        _ => above >= followers,
    }
}

#[cfg(test)]
mod tests {
    use crate::list::room::{has_room, names_above};
    use crate::slip::Slip;

    fn top(rest: &[u8]) -> Vec<u8> {
        [&[b'~'; 126][..], rest].concat()
    }

    #[test]
    fn names_above_are_as_many_as_are_left() {
        for c in 32..=126u8 {
            let left = u64::from(126 - c);
            assert_eq!(names_above(&top(&[c]), Slip::NONE), 95 + 96 * left);
            for d in [32, 33, 97, 125, 126] {
                assert_eq!(names_above(&top(&[c, d]), Slip::NONE), u64::from(126 - d) + 96 * left);
            }
        }
        assert_eq!(names_above(&top(b""), Slip::NONE), 95 * 96);
        for name in [&top(b"")[..125], b"~", b"", &[b'}'; 128], &top(b"")[..64]] {
            assert!(names_above(name, Slip::NONE) > 4096);
        }
    }

    #[test]
    fn the_last_name_leaves_no_room_and_the_one_before_it_room_for_one() {
        assert!(has_room(&top(b"~~"), 0, Slip::NONE) && !has_room(&top(b"~~"), 1, Slip::NONE));
        assert!(has_room(&top(b"~}"), 1, Slip::NONE) && !has_room(&top(b"~}"), 2, Slip::NONE));
    }
}
