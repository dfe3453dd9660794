//! Sizes in few classes, and the rows of them that there must be.

use crate::gen::damage::damages;

/// How many records or vectors.
pub fn size(records: usize) -> String {
    match records {
        0..=2 => records.to_string(),
        3..=12 => "3 to 12".to_string(),
        13..=255 => "13 to 255".to_string(),
        256..=4095 => "256 to 4,095".to_string(),
        _ => "4,096".to_string(),
    }
}

/// The rows of records by their number that there must be, behind these words, and how much rarer than others they may be.
pub fn sizes_wanted(which: &str) -> Vec<(String, u64)> {
    let sizes = [("0", 1), ("1", 1), ("2", 1), ("3 to 12", 1), ("13 to 255", 10), ("256 to 4,095", 10), ("4,096", 50)];
    sizes.map(|(size, times)| (format!("{which}: {size} records"), times)).to_vec()
}

/// The rows of damaged tables beside sound ones.
pub fn damages_wanted() -> impl Iterator<Item = (String, u64)> {
    damages().map(|damage| {
        let times = if damage.name.contains("over 4,096 records") { 50 } else { 4 };
        (format!("made by: {}", damage.name), times)
    })
}

/// The least number of places where AVPs begin, for each row that is about many of them; the most that a request can have first.
pub const MOST_PLACES: [(usize, &str); 3] =
    [(2046, "places: 2,046"), (2045, "places: 2,045"), (1025, "places: 1,025 to 2,044")];

/// The row of a request with so many.
pub fn many_places(places: usize) -> Option<&'static str> {
    MOST_PLACES.iter().find(|(least, _)| places >= *least).map(|(_, row)| *row)
}
