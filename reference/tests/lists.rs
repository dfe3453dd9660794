//! Document 02's list: the bytes of an export by hand, what is refused and in which order, what an import takes and which line it blames.

mod common;

use common::*;
use reference::cases::{Case, Entry, Slice};
use reference::gen::model::{RecordModel, TableModel};
use reference::gen::{make, Stream};
use reference::list::{export, import, judge, Blame, Reason};
use reference::moves::Refusal;
use reference::slip::Slip;
use reference::table::{check_exactly, Table};

const FIRST: &str = "public,private,server,state,pending,barred,services,roaming,mandatory,m1,m2,m3,m4,optional,o1,o2,o3,o4,start,length,set\r\n";
const ALICE: &str = "\"sip:alice@isle\",\"alice@isle\",\"\",0,0,0,1,1,2,1,4294967295,0,0,1,3,0,0,0,2,5,0\r\n";
const BOB: &str = "\"sip:bob,\"\"B\"\"@isle\",\"bob@isle\",\"sip:s1\",2,1,1,0,3,0,0,0,0,0,4,10,20,30,40,0,0,65535\r\n";

fn of_edition_2(records: Vec<RecordModel>) -> TableModel {
    TableModel { issue: Some(7), keep: true, ..isle(records) }
}

/// Alice was never registered, Bob is unregistered, pending, barred and of a set.
fn alice_and_bob() -> TableModel {
    let alice = RecordModel {
        bits: 4,
        mandatory: vec![1, u32::MAX],
        optional: vec![3],
        profile_start: 2,
        profile_length: 5,
        ..record("sip:alice@isle", "alice@isle")
    };
    let bob = RecordModel {
        state: 2,
        bits: 3,
        roaming: 3,
        optional: vec![10, 20, 30, 40],
        server_name: b"sip:s1".to_vec(),
        set: 65_535,
        ..record("sip:bob,\"B\"@isle", "bob@isle")
    };
    of_edition_2(vec![alice, bob])
}

const PROFILE: usize = 7;

fn exported(table: &[u8], area: usize) -> (Result<u32, Refusal>, Vec<u8>) {
    let mut list = vec![0xA5; area];
    (export(table, PROFILE, &mut list, Slip::NONE), list)
}

/// Of a refusal, after a look at what became of the area.
fn not_exported(table: &[u8], area: usize) -> Refusal {
    let (found, list) = exported(table, area);
    assert!(list.iter().all(|byte| *byte == 0xA5));
    found.unwrap_err()
}

fn imported(list: &[u8], header: &[u8], area: usize) -> (Result<u32, Refusal>, Vec<u8>) {
    let mut table = vec![0xA5; area];
    (import(list, header, PROFILE, &mut table, Slip::NONE), table)
}

fn not_imported(list: &[u8], header: &[u8], area: usize) -> Refusal {
    let (found, table) = imported(list, header, area);
    assert!(table.iter().all(|byte| *byte == 0xA5));
    found.unwrap_err()
}

/// The line that is blamed of a list under the header block of Alice's and Bob's table.
fn blamed(list: &str) -> u32 {
    let table = alice_and_bob().encode();
    let (number, line) = not_imported(list.as_bytes(), &table[..512], 1536);
    assert_eq!(number, 14);
    line
}

#[test]
fn a_list_is_written_as_it_is_fixed() {
    let table = alice_and_bob().encode();
    let list = [FIRST, ALICE, BOB].concat();
    let (found, written) = exported(&table, list.len() + 9);
    assert_eq!(found, Ok(list.len() as u32));
    assert_eq!(String::from_utf8(written[..list.len()].to_vec()).unwrap(), list);
    assert_eq!(written[list.len()..], [0xA5; 9]);

    let (found, written) = imported(list.as_bytes(), &table[..512], 1600);
    assert_eq!(found, Ok(1536));
    assert!(written[..1536] == table[..] && written[1536..] == [0xA5; 64]);
}

#[test]
fn a_list_of_none_is_its_first_line() {
    let table = of_edition_2(vec![]).encode();
    let (found, written) = exported(&table, FIRST.len());
    assert_eq!((found, &written[..]), (Ok(FIRST.len() as u32), FIRST.as_bytes()));
    assert_eq!(imported(FIRST.as_bytes(), &table, 512), (Ok(512), table.clone()));
    assert_eq!(not_imported(b"", &table, 512), (14, 1));
    assert_eq!(not_imported([FIRST, "\r\n"].concat().as_bytes(), &table, 512), (14, 2));
}

#[test]
fn an_export_is_refused_by_5_then_13_then_15() {
    let sound = alice_and_bob();
    let length = [FIRST, ALICE, BOB].concat().len();
    let table = sound.encode();
    assert_eq!(not_exported(&table, length - 1), (15, 0));
    assert_eq!(not_exported(&table, 0), (15, 0));
    assert_eq!(not_exported(&[&table[..], &[0]].concat(), length), (5, 0));
    assert_eq!(not_exported(&table[..1024], length), (5, 0));

    let mut strange = sound.clone();
    strange.records[0].private[0] = 31;
    strange.records[1].server_name[1] = 127;
    assert_eq!(not_exported(&strange.encode(), 0), (13, 1));
    strange.records[0].private[0] = b'a';
    assert_eq!(not_exported(&strange.encode(), 0), (13, 2));

    let mut bad = strange.encode();
    bad[512 + 8] = 3;
    assert_eq!(not_exported(&bad, 0), (5, 1));
    let mut old = TableModel { issue: None, ..strange };
    old.records.iter_mut().for_each(|record| record.set = 0);
    assert_eq!(not_exported(&old.encode(), 0), (5, 0));
    // The profile file is asked too.
    assert_eq!(export(&table, PROFILE - 1, &mut vec![0; length], Slip::NONE), Err((5, 1)));
}

#[test]
fn bytes_from_32_to_126_are_listed_and_no_others() {
    for byte in 0..=255u8 {
        for name in 0..3 {
            let mut model = alice_and_bob();
            let bob = &mut model.records[1];
            let name = [&mut bob.public, &mut bob.private, &mut bob.server_name].into_iter().nth(name).unwrap();
            let last = name.len() - 1;
            name[last] = byte;
            let (found, list) = exported(&model.encode(), 600);
            if (32..=126).contains(&byte) {
                let length = found.unwrap() as usize;
                assert_eq!(imported(&list[..length], &model.encode()[..512], 1536), (Ok(1536), model.encode()));
            } else {
                assert_eq!(found, Err((13, 2)), "{byte}");
            }
        }
    }
    // The header's names are not listed.
    let mut model = alice_and_bob();
    model.host = vec![0, 255];
    model.networks[1] = vec![127];
    assert!(exported(&model.encode(), 600).0.is_ok());
}

#[test]
fn an_import_is_refused_by_5_then_14_then_15() {
    let table = alice_and_bob().encode();
    let (list, header) = ([FIRST, ALICE, BOB].concat(), &table[..512]);
    assert_eq!(not_imported(list.as_bytes(), header, 1535), (15, 0));
    assert_eq!(not_imported(list.as_bytes(), header, 0), (15, 0));
    assert_eq!(not_imported(&list.as_bytes()[1..], header, 0), (14, 1));
    let mut unsound = header.to_vec();
    unsound[12] = 2;
    let mut old = header.to_vec();
    old[1] = 1;
    old[408..412].fill(0);
    let mut many = header.to_vec();
    many[8..12].copy_from_slice(&4097u32.to_be_bytes());
    for head in [&unsound[..], &summed(unsound.clone()), &summed(old), &summed(many), &header[..511], b"", &table] {
        assert_eq!(not_imported(&list.as_bytes()[1..], head, 0), (5, 0));
    }
}

#[test]
fn lines_that_are_there_and_lines_that_are_not() {
    for (list, line) in [
        (vec![], 1),
        (vec![ALICE, BOB], 1),
        (vec![FIRST], 2),
        (vec![FIRST, ALICE], 3),
        (vec![FIRST, BOB], 3),
        (vec![FIRST, BOB, ALICE], 3),
        (vec![FIRST, ALICE, ALICE], 3),
        (vec![FIRST, ALICE, BOB, BOB], 4),
        (vec![FIRST, ALICE, BOB, "\r\n"], 4),
        (vec![FIRST, ALICE, BOB, "\0"], 4),
        (vec![FIRST, "\r\n", ALICE, BOB], 2),
        (vec![FIRST, ALICE, &BOB[..BOB.len() - 2]], 3),
        (vec![FIRST, ALICE, &BOB[..BOB.len() - 1]], 3),
        (vec![FIRST, ALICE, &BOB[..1]], 3),
        (vec![FIRST, &ALICE[..20]], 2),
        (vec![&FIRST[..5]], 1),
        (vec!["\u{FEFF}", FIRST, ALICE, BOB], 1),
        (vec![&FIRST[..FIRST.len() - 2], "\n", ALICE, BOB], 1),
        (vec![FIRST, &ALICE[..ALICE.len() - 2], "\n", BOB], 2),
        (vec![FIRST, &ALICE[..ALICE.len() - 2], "\r", BOB], 2),
    ] {
        assert_eq!(blamed(&list.concat()), line, "{list:?}");
    }
}

/// Each turns a part of Alice's line into another that no export writes.
#[test]
fn one_form_of_a_line_is_taken() {
    for (part, other) in [
        ("\"sip:alice@isle\"", "sip:alice@isle"),
        ("\"sip:alice@isle\"", "\"sip:a\"lice@isle\""),
        ("\"sip:alice@isle\"", "\"\""),
        ("\"sip:alice@isle\"", "'sip:alice@isle'"),
        ("alice@isle\",\"\"", "alice@isle\","),
        ("\"alice@isle\"", "\"alice\t@isle\""),
        ("\"alice@isle\"", "\"alice\u{7F}\""),
        ("\"alice@isle\"", "\"alic\u{E9}\""),
        ("\"alice@isle\"", "\"alice\r\n@isle\""),
        (",0,0,0,1,1,", ",00,0,0,1,1,"),
        (",0,0,0,1,1,", ",+0,0,0,1,1,"),
        (",0,0,0,1,1,", ",-0,0,0,1,1,"),
        (",0,0,0,1,1,", ",\"0\",0,0,1,1,"),
        (",0,0,0,1,1,", ",,0,0,1,1,"),
        (",0,0,0,1,1,", ",0.0,0,0,1,1,"),
        (",0,0,0,1,1,", ",3,0,0,1,1,"),
        (",0,0,0,1,1,", ",0,0,2,1,1,"),
        (",0,0,0,1,1,", ",0,0,0,1,257,"),
        (",0,0,0,1,1,", ",0,0,0,1,4,"),
        (",0,0,0,1,1,", ",0,1,0,1,1,"),
        (",0,0,0,1,1,", ",1,0,0,1,1,"),
        (",2,1,4294967295,0,0,", ",2,1,4294967296,0,0,"),
        (",2,1,4294967295,0,0,", ",2,1,8589934591,0,0,"),
        (",2,1,4294967295,0,0,", ",5,1,4294967295,0,0,"),
        (",2,1,4294967295,0,0,", ",1,1,4294967295,0,0,"),
        (",2,1,4294967295,0,0,", ",2,1,4294967295,7,0,"),
        (",2,1,4294967295,0,0,", ",2,1,4294967295,,,"),
        (",2,5,0\r\n", ",3,5,0\r\n"),
        (",2,5,0\r\n", ",2,6,0\r\n"),
        (",2,5,0\r\n", ",0,4097,0\r\n"),
        (",2,5,0\r\n", ",4294967295,5,0\r\n"),
        (",2,5,0\r\n", ",2,5,65536\r\n"),
        (",2,5,0\r\n", ",2,5\r\n"),
        (",2,5,0\r\n", ",2,5,0,\r\n"),
        (",2,5,0\r\n", ",2,5,0,0\r\n"),
        (",2,5,0\r\n", ",2,5,0 \r\n"),
        (",2,5,0\r\n", ", 2,5,0\r\n"),
        (",2,5,0\r\n", ",2;5,0\r\n"),
        (",2,5,0\r\n", ",2,5,99999999999999999999999999\r\n"),
    ] {
        assert!(ALICE.contains(part));
        assert_eq!(blamed(&[FIRST, &ALICE.replacen(part, other, 1), BOB].concat()), 2, "{other}");
    }
    // Names as long as their fields, and a byte longer.
    for (column, most) in [("sip:alice@isle", 128), ("alice@isle\",\"\"", 128)] {
        for length in [most, most + 1] {
            let name = column.replace("sip:alice@isle", &"a".repeat(length)).replace("alice@isle", &"a".repeat(length));
            let list = [FIRST, &ALICE.replacen(column, &name, 1), BOB].concat();
            let table = alice_and_bob().encode();
            let found = imported(list.as_bytes(), &table[..512], 1536).0;
            assert_eq!(found, if length == most { Ok(1536) } else { Err((14, 2)) });
        }
    }
}

#[test]
fn the_later_line_of_a_set_is_blamed() {
    let mut model = alice_and_bob();
    let carol = RecordModel { public: b"sip:carol@isle".to_vec(), bits: 1, ..model.records[1].clone() };
    model.records.push(carol);
    let table = model.encode();
    assert_eq!(check_exactly(&table, PROFILE), Ok(3));
    let third = BOB.replacen("sip:bob,\"\"B\"\"", "sip:carol", 1).replacen(",2,1,1,0,3,", ",2,1,0,0,1,", 1);
    let list = |third: &str| [FIRST, ALICE, BOB, third].concat().into_bytes();
    for (part, other, expected) in [
        ("", "", Ok(2048)),
        ("sip:s1", "sip:s2", Err((14, 4))),
        (",2,1,0,", ",1,1,0,", Err((14, 4))),
        (",2,1,0,", ",2,0,0,", Err((14, 4))),
        (",2,1,0,", ",2,1,1,", Ok(2048)),
        ("65535", "65534", Ok(2048)),
    ] {
        assert_eq!(imported(&list(&third.replacen(part, other, 1)), &table[..512], 2048).0, expected, "{other}");
    }
}

/// A header block that wants so many records.
fn wanting(count: u32) -> Vec<u8> {
    let mut header = of_edition_2(vec![]).encode();
    header[8..12].copy_from_slice(&count.to_be_bytes());
    summed(header)
}

/// Lines of these public identities, all else as simple as can be.
fn lines(publics: &[String]) -> Vec<u8> {
    let line = |public: &String| format!("\"{public}\",\"p\",\"\",0,0,0,0,0,0,0,0,0,0,0,0,0,0,0,0,0,0\r\n");
    [FIRST.to_string(), publics.iter().map(line).collect()].concat().into_bytes()
}

#[test]
fn a_line_must_leave_names_for_those_that_follow() {
    let top = |rest: &str| "~".repeat(126) + rest;
    // How many names stand above.
    for (name, above) in [
        (top("~~"), 0),
        (top("~}"), 1),
        (top("~ "), 94),
        (top("~"), 95),
        (top("}~"), 96),
        (top("}}"), 97),
        (top("} "), 190),
        (top("}"), 191),
        (top("U"), 95 + 96 * 41),
    ] {
        let list = lines(&["a".to_string(), name.clone()]);
        for (count, line) in [(2 + above, 4), (3 + above, 3), (4096, 3)] {
            if (3..=4096).contains(&count) {
                assert_eq!(not_imported(&list, &wanting(count), 0), (14, line), "{name} {count}");
            }
        }
        // It goes before a fault behind it, of form or by a rule; not before one before it.
        let wanted = wanting((3 + above).min(4096));
        let behind = |more: &[u8]| not_imported(&[&list[..], more].concat(), &wanted, 0);
        assert_eq!([behind(b"x"), behind(&lines(&["b".to_string()])[FIRST.len()..])], [(14, 3); 2]);
        let spoiled = String::from_utf8(list).unwrap().replacen("\"a\"", "a", 1);
        assert_eq!(not_imported(spoiled.as_bytes(), &wanted, 0), (14, 2));
    }
    // Above every other name there are more than can be wanted.
    for name in [top(""), "~".repeat(125) + "}~~", "~".repeat(100), top("   ")[..127].to_string()] {
        assert_eq!(not_imported(&lines(&[name]), &wanting(4096), 0), (14, 3));
    }
    // The earliest such line.
    let three = lines(&[top("}}"), top("~"), top("~}")]);
    for (count, line) in [(4, 5), (5, 4), (97, 4), (98, 3), (99, 2), (4096, 2)] {
        assert_eq!(not_imported(&three, &wanting(count), 0), (14, line));
    }
    // All of the last ones.
    let last: Vec<String> =
        (0..=94).map(|n| top("~") + &char::from(32 + n as u8).to_string().replace('"', "\"\"")).collect();
    assert_eq!(imported(&lines(&last), &wanting(95), 96 * 512).0, Ok(96 * 512));
    let reason = |count| judge(&three, &wanting(count), 0, Slip::NONE).unwrap_err();
    assert_eq!(reason(5), Blame { line: 4, reason: Reason::Room });
    assert_eq!(reason(4), Blame { line: 5, reason: Reason::Missing });
}

fn cases(entry: Entry) -> impl Iterator<Item = Case> {
    (0..1000).map(|number| make(Stream::Lists, 14, number).case).filter(move |case| {
        case.entry == entry && [Slice::List, Slice::Table].iter().all(|slice| case.held(*slice).len() < 60_000)
    })
}

#[test]
fn what_was_exported_is_imported_again() {
    let mut exported = 0;
    for case in cases(Entry::Export) {
        let outcome = case.outcome(Slip::NONE);
        let (number, place, length) = outcome.parts();
        assert_eq!(place, 0);
        if number != 0 {
            assert!(!case.entry.changed(&outcome, Slice::List));
            continue;
        }
        exported += 1;
        let (table, profile) = (case.held(Slice::Table), case.held(Slice::Profile));
        let list = case.after(&outcome, Slice::List).unwrap();
        assert_eq!(list[length as usize..], case.held(Slice::List)[length as usize..]);
        let mut area = vec![0; table.len()];
        let found = import(&list[..length as usize], &table[..512], profile.len(), &mut area, Slip::NONE);
        assert_eq!(found, Ok(table.len() as u32));
        assert!(area == *table);
    }
    assert!(exported > 80, "{exported}");
}

#[test]
fn an_import_takes_what_an_export_writes_and_nothing_else() {
    let (mut taken, mut refused) = (0, 0);
    for case in cases(Entry::Import) {
        let outcome = case.outcome(Slip::NONE);
        let (number, _, length) = outcome.parts();
        let list = case.held(Slice::List);
        if number != 0 {
            refused += (number == 14) as u32;
            assert!(!case.entry.changed(&outcome, Slice::Table));
            continue;
        }
        taken += 1;
        let (profile, area) = (case.held(Slice::Profile), case.after(&outcome, Slice::Table).unwrap());
        let (table, past) = area.split_at(length as usize);
        assert!(*past == case.held(Slice::Table)[length as usize..]);
        assert!(table[..512] == *case.held(Slice::Header));
        assert_eq!(check_exactly(table, profile.len()), Ok(Table(table).records().count() as u32));
        let mut again = vec![0; list.len()];
        assert_eq!(export(table, profile.len(), &mut again, Slip::NONE), Ok(list.len() as u32));
        assert!(again == *list);
    }
    assert!(taken > 50 && refused > 200, "{taken} {refused}");
}

/// Every line before the blamed one can stay: with the lines of an export behind it they are taken. Here by the lines of the table that the
/// list was of, where no other line was touched.
#[test]
fn a_line_is_blamed_that_was_spoiled_and_no_earlier_one() {
    let model = alice_and_bob();
    let table = model.encode();
    let right = [FIRST, ALICE, BOB].concat().into_bytes();
    for at in 0..right.len() {
        for other in [0, b'"', b',', b'0', b'1', b'9', b'\r', b'\n', b'a', 255] {
            let mut list = right.clone();
            list[at] = other;
            let line = 1 + right[..at].iter().filter(|byte| **byte == b'\n').count() as u32;
            let mut area = vec![0; 1536];
            match import(&list, &table[..512], PROFILE, &mut area, Slip::NONE) {
                Ok(_) => assert!(list == right || is_written(&area, &list), "byte {at}, {other}"),
                // A line's change may break a rule between it and a later one.
                Err((number, told)) => {
                    assert!(number == 14 && (told == line || told == line + 1), "byte {at}, {other}")
                }
            }
        }
    }
}

fn is_written(table: &[u8], list: &[u8]) -> bool {
    let mut again = vec![0; list.len()];
    export(table, PROFILE, &mut again, Slip::NONE) == Ok(list.len() as u32) && again == list
}
