//! Document 02's voicemail box: the bytes of an answer by hand, what a User-Data-Request is read by, what is decided, and the document.

mod common;

use common::*;
use reference::cases::{Case, Slice};
use reference::gen::model::RecordModel;
use reference::gen::{make, Stream};
use reference::kinds::Dialect;
use reference::refuse::LEAST_BUFFER;
use reference::serve::parts;
use reference::sh::user_data;
use reference::slip::Slip;
use reference::stated::Stated;

/// The applications.
const CX: u32 = 16_777_216;
const SH: u32 = 16_777_217;

fn of_application(application: u32) -> Vec<u8> {
    avp(260, &[number(266, 10415), number(258, application)].concat())
}

/// A message of Sh with these AVPs.
fn sh_message(avps: &[Vec<u8>]) -> Vec<u8> {
    let mut message = message(306, avps);
    message[8..12].copy_from_slice(&SH.to_be_bytes());
    message
}

/// What every request has.
fn common() -> Vec<Vec<u8>> {
    vec![
        avp(263, b"s;1"),
        of_application(SH),
        number(277, 1),
        avp(264, b"as.isle"),
        avp(296, b"isle"),
        avp(283, b"isle"),
    ]
}

fn udr(own: &[Vec<u8>]) -> Vec<u8> {
    sh_message(&[&common()[..], own].concat())
}

/// 700 with one 601.
fn identity(public: &[u8]) -> Vec<u8> {
    avp(700, &avp(601, public))
}

fn asking(public: &[u8], references: &[u32]) -> Vec<u8> {
    let references = references.iter().map(|reference| number(703, *reference));
    udr(&[vec![identity(public)], references.collect()].concat())
}

/// Number, place, value and the answer; the buffer past it stays.
fn sh_call(request: &[u8], table: &[u8], peer: u32, buffer: usize) -> (u64, u64, u64, Vec<u8>) {
    let mut buffer = vec![0xA5; buffer];
    let (word, _) = user_data(request, table, b"", &mut buffer, Stated { peer, features: 0 }, Slip::NONE);
    let (number, place, value) = parts(word);
    let written = if number == 0 { value as usize } else { 0 };
    assert!(buffer[written..].iter().all(|byte| *byte == 0xA5));
    buffer.truncate(written);
    (number, place, value, buffer)
}

/// The answer to a request of an older peer, and the place.
fn answered(request: &[u8], table: &[u8]) -> (Vec<u8>, u64) {
    let (number, place, _, answer) = sh_call(request, table, 3588, LEAST_BUFFER);
    assert_eq!(number, 0);
    (answer, place)
}

fn registered(public: &str, state: u8, bits: u8, server_name: &[u8]) -> RecordModel {
    RecordModel { state, bits, server_name: server_name.to_vec(), ..record(public, "p@isle") }
}

/// Alice is registered, Bob is pending, Carol unregistered and barred, Dave never was.
fn table() -> Vec<u8> {
    isle(vec![
        registered("alice", 1, 0, b"sip:s1"),
        registered("bob", 0, 1, b"sip:s2"),
        registered("carol", 2, 3, b"sip:s3"),
        registered("dave", 0, 4, b""),
    ])
    .encode()
}

const HEAD: &str = "<?xml version=\"1.0\" encoding=\"UTF-8\"?><Sh-Data><Sh-IMS-Data>";
const TAIL: &str = "</Sh-IMS-Data></Sh-Data>";

/// The result, and the document's elements if there is one.
fn told(public: &str, references: &[u32]) -> (String, Option<String>) {
    let (answer, place) = answered(&asking(public.as_bytes(), references), &table());
    assert_eq!(place, 0);
    let document = find(&answer, 702).map(|data| String::from_utf8(data).unwrap());
    let elements = |it: String| it.strip_prefix(HEAD).unwrap().strip_suffix(TAIL).unwrap().to_string();
    (result(&answer), document.map(elements))
}

#[test]
fn an_answer_is_written_as_it_is_fixed() {
    let asked = udr(&[identity(b"alice"), number(703, 11), number(703, 12), avp(284, b"proxy")]);
    let document = format!("{HEAD}<SCSCFName>sip:s1</SCSCFName><IMSUserState>1</IMSUserState>{TAIL}");
    let mut expected = sh_message(&[
        avp(263, b"s;1"),
        of_application(SH),
        number(268, 2001),
        number(277, 1),
        avp(264, b"hss.isle"),
        avp(296, b"isle"),
        avp(702, document.as_bytes()),
        avp(284, b"proxy"),
    ]);
    expected[4] = 0x40;
    assert_eq!(answered(&asked, &table()), (expected, 0));
}

#[test]
fn the_document_has_what_was_asked_in_the_schemas_order() {
    let name = |name: &str| format!("<SCSCFName>{name}</SCSCFName>");
    let state = |state: u32| format!("<IMSUserState>{state}</IMSUserState>");
    for (public, references, elements) in [
        ("alice", &[11][..], state(1)),
        ("alice", &[12], name("sip:s1")),
        ("alice", &[12, 11], name("sip:s1") + &state(1)),
        ("alice", &[11, 12], name("sip:s1") + &state(1)),
        ("alice", &[11, 11, 12, 11, 12], name("sip:s1") + &state(1)),
        ("bob", &[11], state(3)),
        ("bob", &[12], name("sip:s2")),
        ("carol", &[11, 12], name("sip:s3") + &state(2)),
        ("dave", &[11], state(0)),
        ("dave", &[12], String::new()),
        ("dave", &[11, 12], state(0)),
    ] {
        assert_eq!(told(public, references), ("B2001".to_string(), Some(elements)), "{public} {references:?}");
    }
}

/// Registered goes before pending.
#[test]
fn states_are_told_as_the_standard_ranks_them() {
    for (state, pending, expected) in [(0, 0, 0), (0, 1, 3), (1, 0, 1), (1, 1, 1), (2, 0, 2), (2, 1, 2)] {
        let server_name: &[u8] = if state == 0 && pending == 0 { b"" } else { b"s" };
        let table = isle(vec![registered("a", state, pending, server_name)]).encode();
        let (answer, _) = answered(&asking(b"a", &[11]), &table);
        let document = String::from_utf8(find(&answer, 702).unwrap()).unwrap();
        assert_eq!(document, format!("{HEAD}<IMSUserState>{expected}</IMSUserState>{TAIL}"));
    }
}

#[test]
fn five_characters_are_escaped_and_no_other_byte() {
    for byte in 0..=255u8 {
        let table = isle(vec![registered("a", 1, 0, &[b'x', byte, byte, b'y'])]).encode();
        let (answer, _) = answered(&asking(b"a", &[12]), &table);
        let told = match byte {
            b'&' => b"&amp;".to_vec(),
            b'<' => b"&lt;".to_vec(),
            b'>' => b"&gt;".to_vec(),
            b'"' => b"&quot;".to_vec(),
            b'\'' => b"&apos;".to_vec(),
            byte => vec![byte],
        };
        let expected = [HEAD.as_bytes(), b"<SCSCFName>x", &told, &told, b"y</SCSCFName>", TAIL.as_bytes()].concat();
        assert_eq!(find(&answer, 702).unwrap(), expected, "{byte}");
    }
    // The longest name of all quotes: 96 x 6 bytes.
    let table = isle(vec![registered("a", 1, 0, &[b'"'; 96])]).encode();
    let document = find(&answered(&asking(b"a", &[12]), &table).0, 702).unwrap();
    assert_eq!(document.len(), HEAD.len() + TAIL.len() + "<SCSCFName></SCSCFName>".len() + 576);
}

#[test]
fn an_unknown_identity_goes_before_another_reference() {
    for references in [&[11][..], &[12], &[10], &[0, 11], &[11, 13]] {
        assert_eq!(told("nobody", references), ("X5001".to_string(), None));
        assert_eq!(told("", references), ("X5001".to_string(), None));
    }
    for references in [&[10][..], &[0], &[13], &[11, 10], &[10, 12], &[11, 12, 17], &[11 + 256], &[12 | 1 << 31]] {
        assert_eq!(told("alice", references), ("X5100".to_string(), None), "{references:?}");
    }
    // User-Name, barring and services do not count.
    let asked = udr(&[identity(b"carol"), number(703, 11), avp(1, b"another")]);
    assert_eq!(result(&answered(&asked, &table()).0), "B2001");
}

#[test]
fn an_x_result_has_no_failed_avp_and_no_document() {
    for (public, reference, code) in [(b"nobody", 11, 5001), (b"alice\0", 11, 5001)] {
        let (answer, _) = answered(&asking(public, &[reference]), &table());
        let mut expected = sh_message(&[
            avp(263, b"s;1"),
            of_application(SH),
            avp(297, &[number(266, 10415), number(298, code)].concat()),
            number(277, 1),
            avp(264, b"hss.isle"),
            avp(296, b"isle"),
        ]);
        expected[4] = 0x40;
        assert_eq!(answer, expected);
    }
}

/// The result, the place and what Failed-AVP holds.
fn fault(request: &[u8]) -> (String, u64, Option<Vec<u8>>) {
    let (answer, place) = answered(request, &table());
    (result(&answer), place, find(&answer, 279))
}

#[test]
fn header_faults_come_in_their_order_and_carry_the_own_application() {
    let right = asking(b"alice", &[11]);
    let with = |changes: &[(usize, u8)]| {
        let mut request = right.clone();
        changes.iter().for_each(|(at, byte)| request[*at] = *byte);
        request
    };
    // 302, and the application of Cx.
    let (version, e, command, application) = ((0, 2), (4, 0xA0), (7, 46), (11, 0));
    for (changes, expected) in [
        (vec![version, e, command, application], "B5011"),
        (vec![e, command, application], "B3008"),
        (vec![command, application], "B3001"),
        (vec![command], "B3001"),
        (vec![application], "B3007"),
    ] {
        let (answer, place) = answered(&with(&changes), &table());
        assert_eq!((result(&answer), place), (expected.to_string(), 0));
        assert_eq!(find(&answer, 260), Some([number(266, 10415), number(258, SH)].concat()));
        assert_eq!((find(&answer, 279), find(&answer, 702)), (None, None));
    }
    // The Cx entry does not serve it.
    assert_eq!(result(&call(&right, &table(), b"").answer), "B3001");
    let mut of_cx = right;
    of_cx[11] = 0;
    assert_eq!(result(&call(&of_cx, &table(), b"").answer), "B3001");
}

#[test]
fn its_own_kinds_are_known_and_those_of_cx_are_not() {
    let right = [identity(b"alice"), number(703, 11)];
    for code in [600, 601, 602, 606, 607, 612, 614, 623, 624, 629, 630, 701, 702, 704, 708, 719] {
        let marked = avp(code, b"data");
        let request = udr(&[&right[..], &[marked.clone()]].concat());
        let place = request.len() as u64 - marked.len() as u64;
        assert_eq!(fault(&request), ("B5001".to_string(), place, Some(marked.clone())), "{code}");
        let mut unmarked = marked;
        unmarked[4] &= !0x40;
        assert_eq!(fault(&udr(&[&right[..], &[unmarked]].concat())).0, "B2001", "{code}");
    }
    // 628 is known, and not named: of any content and with M, any number of times.
    for features in [vec![], vec![avp(628, b"")], vec![avp(628, b"rubbish"), avp(628, &number(630, 9))]] {
        let (answer, _) = answered(&udr(&[&right[..], &features].concat()), &table());
        assert_eq!((result(&answer), find(&answer, 628)), ("B2001".to_string(), None));
    }
    // And the Cx entry does not know its kinds.
    for code in [700, 703] {
        let request = request(302, &[avp(601, b"alice"), avp(code, b"data")]);
        assert_eq!(result(&call(&request, &table(), b"").answer), "B5001");
    }
    assert_eq!(Dialect::Sh.kinds().len(), 13);
}

#[test]
fn what_is_named_comes_once_but_for_references() {
    let right = [identity(b"alice"), number(703, 11)];
    let more = |avp: Vec<u8>| udr(&[&right[..], &[avp]].concat());
    let place = udr(&right).len() as u64;
    for again in [identity(b"bob"), avp(263, b"s"), of_application(SH), number(277, 1), avp(264, b""), avp(283, b"")] {
        assert_eq!(fault(&more(again.clone())), ("B5009".to_string(), place, Some(again)));
    }
    assert_eq!(fault(&more(avp(1, b"n"))).0, "B2001");
    let twice = udr(&[&right[..], &[avp(1, b"n"), avp(1, b"n")]].concat());
    assert_eq!(fault(&twice).0, "B5009");
    for free in [avp(293, b""), avp(282, b""), avp(284, b""), number(703, 12)] {
        assert_eq!(fault(&more(free)).0, "B2001");
    }
}

#[test]
fn the_missing_ones_are_looked_for_in_order() {
    let all = [common(), vec![identity(b"alice"), number(703, 11)]].concat();
    let examples = [
        avp(263, b""),
        avp(260, b""),
        number(277, 0),
        avp(264, b""),
        avp(296, b""),
        avp(283, b""),
        avp(700, b""),
        number(703, 0),
    ];
    for first in 1..all.len() {
        // This one and those behind it are left out, but for the last.
        let mut left = all[..first].to_vec();
        left.extend(all.last().filter(|_| first < all.len() - 1).cloned());
        let expected = ("B5005".to_string(), 0, Some(examples[first].clone()));
        assert_eq!(fault(&sh_message(&left)), expected);
    }
    assert_eq!(fault(&sh_message(&all[1..])), ("B5005".to_string(), 0, Some(examples[0].clone())));
}

#[test]
fn user_identity_holds_one_public_identity() {
    let with = |group: &[u8]| udr(&[avp(700, group), number(703, 11)]);
    let place = udr(&[]).len() as u64;
    let right = avp(601, b"alice");
    let mut without_vendor = avp(1, b"alice");
    without_vendor[..4].copy_from_slice(&601u32.to_be_bytes());
    let mut reserved = right.clone();
    reserved[4] |= 1;
    let mut other_vendor = right.clone();
    other_vendor[11] ^= 1;
    let mut passing = right.clone();
    passing[7] = 21;
    for bad in [
        vec![],
        [right.clone(), right.clone()].concat(),
        [right.clone(), avp(701, b"1")].concat(),
        avp(701, b"1"),
        [&right[..], &[0; 4]].concat(),
        [&right[..], &[0; 1]].concat(),
        right[..16].to_vec(),
        right[..11].to_vec(),
        without_vendor,
        reserved,
        other_vendor,
        passing,
    ] {
        assert_eq!(fault(&with(&bad)), ("B5004".to_string(), place, Some(avp(700, &bad))), "{bad:?}");
    }
    // Its padding is whole, cut or between, and of any bytes.
    for length in 17..=20 {
        let mut group = right[..length].to_vec();
        group[17..].fill(7);
        assert_eq!(fault(&with(&group)).0, "B2001", "{length}");
    }
    assert_eq!(fault(&with(&avp(601, b""))).0, "X5001");
}

#[test]
fn a_reference_has_4_bytes_of_any_value() {
    for length in [0, 1, 3, 5, 8] {
        let wrong = avp(703, &[0; 8][..length]);
        let request = udr(&[identity(b"alice"), wrong.clone()]);
        let place = request.len() as u64 - wrong.len() as u64;
        assert_eq!(fault(&request), ("B5014".to_string(), place, Some(avp(703, b""))), "{length}");
    }
}

#[test]
fn the_group_of_the_application_is_that_of_sh() {
    let with = |group: Vec<u8>| {
        let mut all = common();
        all[1] = avp(260, &group);
        sh_message(&[all, vec![identity(b"alice"), number(703, 11)]].concat())
    };
    let (vendor, own) = (number(266, 10415), number(258, SH));
    assert_eq!(fault(&with([vendor.clone(), number(258, CX)].concat())).0, "B5004");
    assert_eq!(fault(&with([own.clone(), vendor.clone()].concat())).0, "B2001");
    let several = with([vendor.clone(), vendor, own].concat());
    assert_eq!(fault(&several).0, "B2001");
    let (_, place, _, answer) = sh_call(&several, &table(), 6733, LEAST_BUFFER);
    assert_eq!((result(&answer), place), ("B5009".to_string(), 32));
}

#[test]
fn refusals_come_in_their_order() {
    let (right, sound) = (asking(b"alice", &[11]), table());
    let mut unsound = sound.clone();
    unsound[512 + 8] = 9;
    let mut unasked = right.clone();
    unasked[4] &= 0x7F;
    let long = [&right[..], &[0; 4]].concat();
    for (peer, buffer, request, table, expected) in [
        (1, 0, &right[..19], &unsound, (12, 0)),
        (3588, LEAST_BUFFER - 1, &right[..19], &unsound, (1, 0)),
        (3588, LEAST_BUFFER, &right[..19], &unsound, (2, 0)),
        (3588, LEAST_BUFFER, &long[..], &unsound, (3, 0)),
        (3588, LEAST_BUFFER, &unasked[..], &unsound, (4, 0)),
        (6733, LEAST_BUFFER, &right[..], &unsound, (5, 1)),
        (3588, LEAST_BUFFER, &right[..], &sound[..511].to_vec(), (5, 0)),
    ] {
        let (number, place, value, _) = sh_call(request, table, peer, buffer);
        assert_eq!(((number, value), place), (expected, 0));
    }
    // A longer area is read as its table.
    let area = [&sound[..], &[7; 700]].concat();
    assert_eq!(result(&answered(&right, &area).0), "B2001");
}

fn cases() -> impl Iterator<Item = Case> {
    let small = |case: &Case| case.held(Slice::Table).len() < 60_000;
    (0..1500).map(|number| make(Stream::Voicemail, 12, number).case).filter(small)
}

/// An answer depends on the public identity's record and the header alone: by the look of every answered case over a table of that record.
#[test]
fn only_the_asked_record_counts() {
    let mut decided = 0;
    for case in cases() {
        let outcome = case.outcome(Slip::NONE);
        let (request, area) = (case.held(Slice::Request), case.held(Slice::Table));
        if outcome.parts().0 != 0 {
            assert!(!case.entry.changed(&outcome, Slice::Buffer));
            continue;
        }
        let answer = case.answer(&outcome).unwrap();
        let public = find(&request, 700).and_then(|group| group.get(12..).map(<[u8]>::to_vec)).unwrap_or_default();
        let mut model = reference::gen::model::TableModel::of(reference::table::Table(&area));
        model.records.retain(|record| public.starts_with(&record.public));
        let mut buffer = vec![0; LEAST_BUFFER];
        let (word, _) =
            user_data(&request, &model.encode(), &case.held(Slice::Profile), &mut buffer, case.stated(), Slip::NONE);
        assert_eq!(word, outcome.word);
        assert!(buffer[..answer.len()] == answer[..]);
        decided += find(&answer, 702).is_some() as u32;
    }
    assert!(decided > 200, "{decided}");
}
