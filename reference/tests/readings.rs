//! README.md's tables of what shows each reading of document 02's requests name rows and faults that there are.

use reference::gen::STREAMS;
use reference::slip::{by_name, faults, SILENT};
use reference::stats::required_rows;

/// The rows of the table under this heading, each as its columns.
fn table(heading: &str) -> Vec<Vec<&'static str>> {
    let readme = include_str!("../README.md");
    let section = readme.split("\n#").find(|section| section.trim_start_matches(['#', ' ']).starts_with(heading));
    let lines = section.expect(heading).lines().filter(|line| line.starts_with("| ") && !line.starts_with("| Reading"));
    lines.map(|line| line.trim_matches('|').split(" | ").collect()).collect()
}

fn spans(column: &str) -> impl Iterator<Item = &str> {
    column.split('`').skip(1).step_by(2)
}

/// Each request's heading, and its readings that cases can show.
fn requests() -> [(&'static str, Vec<u32>); 12] {
    [
        // 19 is about programs over files.
        ("The authentication request", (1..=25).filter(|number| *number != 19).collect()),
        // 7 is about entries that are not there yet, 8 about a program.
        ("The place of the AVP at fault", vec![1, 2, 3, 4, 5, 6, 9, 10]),
        // 14 is about later requests, 15 about speed, 16 about counts that no file reaches.
        ("The month's numbers", (1..=13).collect()),
        ("The second stored form", (1..=9).collect()),
        // 13 is about speed.
        ("Registering one registers the set", (1..=12).collect()),
        ("Taking over a new table", (1..=12).collect()),
        ("The newer base standard", (1..=6).collect()),
        // 10 is about a program.
        ("Features", (1..=9).collect()),
        // 15 is about crates.
        ("The voicemail box", (1..=14).collect()),
        ("A list for the billing desk", (1..=14).collect()),
        ("The row", (1..=3).collect()),
        // 5 is about the stack, 6 about crates.
        ("The plain engine", (1..=4).collect()),
    ]
}

#[test]
fn every_reading_has_rows_and_faults_that_there_are() {
    let rows = STREAMS.map(required_rows).concat();
    for (heading, readings) in requests() {
        let mut numbers = Vec::new();
        for columns in table(heading) {
            assert_eq!(columns.len(), 3, "{columns:?}");
            let number = columns[0].trim().split(',').next().unwrap();
            numbers.push(number.parse::<u32>().unwrap());
            assert!(spans(columns[1]).count() > 0 && spans(columns[2]).count() > 0, "{heading}: {number}");
            for row in spans(columns[1]) {
                assert!(rows.iter().any(|it| it.starts_with(row)), "{heading}: {number}: no row {row}");
            }
            for fault in spans(columns[2]) {
                assert!(by_name(fault).is_some(), "{heading}: {number}: no fault {fault}");
            }
        }
        assert_eq!(numbers, readings, "{heading}");
    }
}

/// By what a fault says of itself; the tables leave none of them out.
#[test]
fn every_fault_about_a_request_goes_against_a_reading() {
    let named = |heading| table(heading).into_iter().flat_map(|columns| spans(columns[2]).collect::<Vec<&str>>());
    let named: Vec<&str> = requests().iter().flat_map(|(heading, _)| named(heading)).collect();
    let words =
        ["MAR", "ector", "XRES", "item", "scheme", "607", "608", "609", "610", "612", "613", "625", "626", "RAND"];
    let of_place = ["the place", "place 0", "as its place"];
    let of_report = ["report", "piece", "counts", "counted", "largest answer", "word 1", "word 4", "left end"];
    let of_editions = ["edition", "issue", "set number", "move"];
    let of_sets = ["a set", "the set", "one set", "its set", "of sets", "sets ", "free identity"];
    let of_areas =
        ["area", "take-over", "new table", "past the count", "past the table", "refusal 9", "refusal 10", "refusal 11"];
    let of_peers = ["peer", "RFC 6733", "refusal 12", "Vendor-Ids are"];
    let of_features = ["628", "629", "630", "X5011", "own list", "features"];
    let of_voicemail = [" Sh ", "in Sh", "700", "702", "703", "the document", "X5100", "306", "data reference"];
    let of_lists = ["export", "import", "listed", "a list", " line", "refusal 13", "refusal 14", "refusal 15"];
    let is_about = |what: &str| {
        let before = [&words[..], &of_place, &of_report, &of_editions, &of_sets, &of_areas, &of_peers, &of_features];
        let all =
            [before.concat(), of_lists.to_vec(), of_voicemail.to_vec(), vec!["a row", "of a row", "the plain engine"]]
                .concat();
        all.into_iter().any(|word| what.contains(word))
    };
    for it in faults().filter(|it| is_about(it.what)) {
        assert!(named.contains(&it.name), "{}: {}", it.name, it.what);
    }
}

#[test]
fn the_readme_says_why_no_case_shows_a_silent_fault() {
    let readme = include_str!("../README.md");
    for it in SILENT {
        let said = readme.split("No case can show").skip(1).filter_map(|text| text.split("\n\n").next());
        assert!(said.into_iter().any(|text| text.contains(&format!("`{}`", it.name))), "{}", it.name);
    }
}
