//! The deliberate faults that no case can show: over every sound table they come to the same as the true program, and over others they
//! would not. Two of them are document 02's branch that nobody can reach, the B5012 of UAR and LIR.

mod common;

use common::*;
use reference::cases::{Case, Entry, Slice};
use reference::decide::{decide, Files};
use reference::gen::model::{RecordModel, TableModel};
use reference::gen::{make, Stream, STREAMS};
use reference::kinds::Command;
use reference::message::Message;
use reference::read::{read, SEVERAL};
use reference::report::{name, word};
use reference::slip::{Fault, Slip, SILENT};
use reference::stated::Stated;
use reference::table::{check, Table};
use reference::vectors::Vectors;
use reference::verdict::{Code, Why};

fn is_small(case: &Case) -> bool {
    [Slice::Table, Slice::Vectors, Slice::Requests].iter().all(|it| case.held(*it).len() < 60_000)
}

#[test]
fn no_case_shows_a_silent_fault() {
    let mut altering = 0;
    for stream in STREAMS {
        for number in 0..150 {
            let case = make(stream, 63, number).case;
            if !is_small(&case) {
                continue;
            }
            let truly = case.outcome(Slip::NONE);
            for it in SILENT {
                assert!(
                    case.outcome(Slip::of(it.fault)) == truly,
                    "{stream:?} {number} shows {}: {}",
                    it.name,
                    it.what
                );
            }
            altering += (case.entry == Entry::Decide && case.entry.changed(&truly, Slice::Table)) as u32;
        }
    }
    assert!(altering > 10, "{altering}");
}

/// What is decided of a request, whatever the table.
fn decided(request: &[u8], table: &[u8], slip: Slip) -> Code {
    let request = read(Message(request), Stated::OLDER, Slip::NONE).ok().unwrap();
    decide(&request, Files { table: Table(table), profile: b"", vectors: Vectors(b"") }, Stated::OLDER, slip).result
}

/// A record of `p`, in set 5.
fn in_set(public: &str, state: u8, server_name: &[u8]) -> RecordModel {
    RecordModel { state, server_name: server_name.to_vec(), set: 5, ..record(public, "p") }
}

/// They are faults: over tables that are not sound they decide otherwise.
#[test]
fn an_unsound_table_would_show_them() {
    let table = |records| TableModel { issue: Some(7), ..isle(records) }.encode();
    let uar = |asked_type| request(300, &[avp(1, b"p"), avp(601, b"a"), avp(600, b"isle"), number(623, asked_type)]);
    let nameless = request(301, &[avp(1, b"p"), avp(602, b"s"), number(614, 4), number(624, 0)]);
    let no_name = |state| table(vec![in_set("a", state, b"")]);
    let disagreeing = table(vec![in_set("a", 1, b"s"), in_set("b", 0, b"")]);
    let lir = request(302, &[avp(601, b"a")]);
    for (fault, request, table, truly, otherwise) in [
        (Fault::NoNameUnableInAuthorization, uar(0), no_name(1), Code::Experimental(2002), Code::Base(5012)),
        (Fault::NoNameUnableInAuthorization, uar(1), no_name(2), Code::Base(2001), Code::Base(5012)),
        (Fault::NoNameUnableInLocation, lir.clone(), no_name(1), Code::Base(2001), Code::Base(5012)),
        (Fault::NoNameUnableInLocation, lir, no_name(2), Code::Base(2001), Code::Base(5012)),
        (Fault::NamedAskedAlone, sar("a", b"s", 2), disagreeing.clone(), Code::Experimental(5007), Code::Base(2001)),
        (Fault::NamelessNotClosed, nameless, disagreeing, Code::Experimental(5007), Code::Base(2001)),
    ] {
        assert_eq!(check(&table, 0).map(drop), Err(table.len() as u32 / 512 - 1));
        assert_eq!(decided(&request, &table, Slip::NONE), truly, "{fault:?}");
        assert_eq!(decided(&request, &table, Slip::of(fault)), otherwise, "{fault:?}");
    }
}

/// Of a second 260 two rules say the same, and only the reason that reading gives tells which.
#[test]
fn a_second_260_tells_the_order_of_its_rules_by_its_reason_alone() {
    let several = avp(260, &[number(266, 10415), number(266, 10415), number(258, 16_777_216)].concat());
    let request = request(302, &[avp(601, b"a"), several]);
    let finding = |slip| read(Message(&request), Stated::NEWER, slip).err().unwrap();
    let (truly, otherwise) = (finding(Slip::NONE), finding(Slip::of(Fault::SeveralVendorsBeforeCount)));
    assert_eq!((truly.result, &truly.failed, truly.place), (otherwise.result, &otherwise.failed, otherwise.place));
    assert_eq!(truly.why, Why::Rule('f', "Vendor-Specific-Application-Id"));
    assert_eq!(otherwise.why, Why::Rule('h', SEVERAL));
}

/// Why nobody can reach that branch: in states 1 and 2 a sound record has a server name.
#[test]
fn a_sound_record_in_state_1_or_2_has_a_server_name() {
    let mut registered = 0;
    for stream in [Stream::Tables, Stream::Calls, Stream::Moves] {
        for case in (0..300).map(|number| make(stream, 66, number).case).filter(is_small) {
            let table = case.held(Slice::Table);
            if check(&table, case.held(Slice::Profile).len()).is_err() {
                continue;
            }
            for (block, record) in Table(&table).records().filter(|(_, record)| record.state() != 0) {
                assert!(!record.server_name().is_empty(), "block {block}");
                registered += 1;
            }
        }
    }
    assert!(registered > 1000, "{registered}");
    for state in [1, 2] {
        for pending in [0, 1] {
            let without = RecordModel { state, bits: pending, ..record("a", "p") };
            assert_eq!(check(&isle(vec![without]).encode(), 0), Err(1));
        }
    }
}

/// B5012 is given by a SAR of type 0 and by a MAR alone.
#[test]
fn uar_and_lir_never_say_b5012() {
    let mut said = [0; 2];
    for case in (0..1500).map(|number| make(Stream::Calls, 67, number).case).filter(is_small) {
        if let Why::Decided(decision) = case.outcome_and_why(Slip::NONE).1 {
            if decision.result == Some(Code::Base(5012)) {
                match decision.command {
                    Some(Command::ServerAssignment) if decision.asked_type == 0 => said[0] += 1,
                    Some(Command::MultimediaAuth) => said[1] += 1,
                    _ => panic!("{decision:?}"),
                }
            }
        }
    }
    assert!(said.iter().all(|count| *count > 3), "{said:?}");
}

/// The report's columns stay, and these two are 0.
#[test]
fn the_report_counts_no_b5012_of_uar_and_lir() {
    let of = |row: &str| (0..word::ALL).find(|at| *at >= word::CELLS && name(*at) == row).expect(row);
    let (never, given) = ([of("300: B5012"), of("302: B5012")], [of("301: B5012"), of("303: B5012")]);
    let mut counted = [0; 2];
    for case in (0..150).map(|number| make(Stream::Reports, 68, number).case).filter(is_small) {
        let outcome = case.outcome(Slip::NONE);
        let area = case.after(&outcome, Slice::Report).unwrap();
        if outcome.parts().0 == 15 {
            continue;
        }
        assert!(never.iter().all(|at| area[8 * at..][..8] == [0; 8]));
        given.iter().zip(&mut counted).for_each(|(at, count)| *count += u32::from(area[8 * at + 7]));
    }
    assert!(counted.iter().all(|count| *count > 0), "{counted:?}");
}
