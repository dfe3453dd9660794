//! The programs over files: what they say of a vector file, and of one that is not there or cannot be read.

mod common;

use common::*;
use std::fs;
use std::io::Write;
use std::path::{Path, PathBuf};
use std::process::{Command, Output, Stdio};

/// A folder with a table of Alice's and an empty profile.
fn folder(name: &str) -> PathBuf {
    let folder = Path::new(env!("CARGO_TARGET_TMPDIR")).join(name);
    fs::remove_dir_all(&folder).ok();
    fs::create_dir_all(&folder).unwrap();
    fs::write(folder.join("table"), isle(vec![record("sip:alice@isle", "alice@isle")]).encode()).unwrap();
    fs::write(folder.join("profile"), b"").unwrap();
    folder
}

fn run(folder: &Path, command: &str, input: &[u8]) -> Output {
    let mut child = Command::new(env!("CARGO_BIN_EXE_reference"))
        .arg(command)
        .current_dir(folder)
        .stdin(Stdio::piped())
        .stdout(Stdio::piped())
        .stderr(Stdio::piped())
        .spawn()
        .unwrap();
    // A program that fails before it reads hangs up.
    child.stdin.take().unwrap().write_all(input).ok();
    child.wait_with_output().unwrap()
}

/// On standard output, with nothing on standard error.
fn said(folder: &Path, command: &str, input: &[u8]) -> Vec<u8> {
    let output = run(folder, command, input);
    assert!(output.status.success() && output.stderr.is_empty());
    output.stdout
}

fn alice_asks() -> Vec<u8> {
    mar("alice@isle", "sip:alice@isle", 1, b"sip:s1")
}

#[test]
fn a_vector_file_is_read_where_it_is_there_and_never_written() {
    let folder = folder("there");
    assert_eq!(said(&folder, "check", b""), b"sound, 1 records\n");
    assert_eq!(result(&said(&folder, "answer", &alice_asks())), "B5012");

    let vectors = vector(0, "alice@isle", 1, b"xres");
    fs::write(folder.join("vectors"), &vectors).unwrap();
    assert_eq!(said(&folder, "check", b""), b"sound, 1 records\nvectors sound, 1 blocks\n");
    for _ in 0..2 {
        assert_eq!(result(&said(&folder, "answer", &alice_asks())), "B2001");
        assert_eq!(fs::read(folder.join("vectors")).unwrap(), vectors);
    }

    fs::write(folder.join("vectors"), [vectors, vec![0; 512]].concat()).unwrap();
    assert_eq!(said(&folder, "check", b""), b"sound, 1 records\nvector block 1 is bad\n");
    assert_eq!(said(&folder, "answer", &alice_asks()), b"refused 6\n");
    assert_eq!(said(&folder, "answer", &request(302, &[])), b"refused 6\n");
}

/// The file may be longer than its table, as a working area is.
#[test]
fn a_longer_table_file_is_read_as_its_table() {
    let folder = folder("longer");
    let mut area = fs::read(folder.join("table")).unwrap();
    let exact = said(&folder, "answer", &alice_asks());
    area.extend([7; 700]);
    fs::write(folder.join("table"), &area).unwrap();
    assert_eq!(said(&folder, "check", b""), b"sound, 1 records\n");
    assert_eq!(said(&folder, "answer", &alice_asks()), exact);
    fs::write(folder.join("table"), &area[..1023]).unwrap();
    assert_eq!(said(&folder, "check", b""), b"block 0 is bad\n");
}

/// The place of the AVP at fault is the call's; the program writes the answer alone.
#[test]
fn an_answer_to_an_avp_at_fault_is_written_alone() {
    let folder = folder("fault");
    let table = fs::read(folder.join("table")).unwrap();
    let asked = request(302, &[avp(601, b"sip:alice@isle"), number(633, 0)]);
    let done = call(&asked, &table, b"");
    assert!(done.place != 0);
    assert!(said(&folder, "answer", &asked) == done.answer);
}

/// It states RFC 3588 and no feature: several Vendor-Ids are taken, and the own list is empty.
#[test]
fn an_answer_is_that_to_an_older_peer_of_a_server_without_features() {
    let folder = folder("stated");
    let several = avp(260, &[number(266, 10415), number(266, 10415), number(258, 16_777_216)].concat());
    let asked = |features: Vec<u8>| {
        let avps =
            [avp(263, b"s;1"), several.clone(), number(277, 1), avp(264, b"c"), avp(296, b"isle"), avp(283, b"isle")];
        message(302, &[&avps[..], &[avp(601, b"sip:nobody@isle"), features]].concat())
    };
    let list = |bits: u32| avp(628, &[number(266, 10415), number(629, 1), number(630, bits)].concat());
    assert_eq!(result(&said(&folder, "answer", &asked(list(1)))), "X5011");
    let answer = said(&folder, "answer", &asked(list(0)));
    assert_eq!(
        (result(&answer), find(&answer, 628).map(|data| data[40..].to_vec())),
        ("X5001".into(), Some(vec![0; 4]))
    );
}

#[test]
fn a_vector_file_that_is_a_folder_or_too_long_is_told() {
    let folder = folder("unreadable");
    let fails = |command: &str| {
        let output = run(&folder, command, &alice_asks());
        assert!(!output.status.success() && output.stdout.is_empty() && !output.stderr.is_empty(), "{command}");
    };
    fs::create_dir(folder.join("vectors")).unwrap();
    fails("check");
    fails("answer");
    fs::remove_dir(folder.join("vectors")).unwrap();
    fs::write(folder.join("vectors"), vector(0, "a", 1, b"xres").repeat(129)).unwrap();
    fails("answer");
    assert_eq!(said(&folder, "check", b""), b"sound, 1 records\nvectors sound, 129 blocks\n");
    fs::write(folder.join("vectors"), vector(0, "a", 1, b"xres").repeat(128)).unwrap();
    assert_eq!(result(&said(&folder, "answer", &alice_asks())), "B5012");
}
