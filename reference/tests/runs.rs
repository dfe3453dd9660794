//! Runs of calls with the files carried along: no vector is sent twice, and nothing but a MAR's success marks one.

mod common;

use common::*;
use reference::gen::model::RecordModel;
use reference::message::Message;
use reference::rng::Rng;
use reference::slip::Slip;
use reference::{table, vectors};

const PEOPLE: [&str; 3] = ["alice", "bob", "carol"];

/// Each vector has a RAND of its own, so that what is sent tells its block.
fn file(rng: &mut Rng, blocks: usize) -> Vec<u8> {
    let one = |n: usize| {
        let name = ["alice@isle", "bob@isle", "carol@isle", "nobody@isle"][rng.below(4)];
        let mut block = vector(rng.once_in(5) as u8, name, 0, &[n as u8; 7]);
        block[132..136].copy_from_slice(&(n as u32).to_be_bytes());
        summed(block)
    };
    (0..blocks).map(one).collect::<Vec<Vec<u8>>>().concat()
}

fn households() -> Vec<u8> {
    let mut records = Vec::new();
    for name in PEOPLE {
        for scheme in ["sip", "tel"] {
            records.push(record(&format!("{scheme}:{name}@isle"), &format!("{name}@isle")));
        }
    }
    let registered = RecordModel { state: 1, server_name: b"sip:s1".to_vec(), ..records[1].clone() };
    records[1] = registered;
    isle(records).encode()
}

/// Mostly a MAR, right or not; else one of the other requests.
fn some_request(rng: &mut Rng) -> Vec<u8> {
    let name = *rng.pick(&PEOPLE);
    let private = format!("{}@isle", if rng.once_in(8) { "nobody" } else { name });
    let public = format!("{}:{name}@isle", if rng.coin() { "sip" } else { "tel" });
    let server = *rng.pick(&[&b"sip:s1"[..], b"sip:s2", b"sip:s", b""]);
    let asked = *rng.pick(&[0, 1, 1, 2, 3, 17, u32::MAX]);
    let mut request = match rng.below(12) {
        0 => request(302, &[avp(601, public.as_bytes())]),
        1 => request(300, &[avp(1, private.as_bytes()), avp(601, public.as_bytes()), avp(600, b"isle")]),
        2 | 3 => {
            let asked_type = rng.below(12) as u32;
            sar(&public, server, asked_type)
        }
        4 => mar(&private, &public, asked, server)[..40].to_vec(),
        _ => mar(&private, &public, asked, server),
    };
    if rng.once_in(12) {
        let at = rng.below(request.len());
        request[at] ^= 1 << rng.below(8);
    }
    request
}

/// The blocks that an answer sends, by their RANDs.
fn sent(answer: &[u8]) -> Vec<usize> {
    let items = Message(answer).avps().sound(Slip::NONE).into_iter().filter(|avp| avp.code == 612);
    items
        .map(|item| {
            let members = item.members().sound(Slip::NONE);
            let rand = members.iter().find(|avp| avp.code == 609).unwrap().data;
            u32::from_be_bytes([rand[0], rand[1], rand[2], rand[3]]) as usize
        })
        .collect()
}

#[test]
fn no_vector_is_sent_twice() {
    let mut all_sent = 0;
    for seed in 0..15 {
        let mut rng = Rng::new(seed);
        let (mut table, mut vectors) = (households(), file(&mut rng, 40));
        let mut ever: Vec<usize> = Vec::new();
        for _ in 0..80 {
            let asked = some_request(&mut rng);
            let done = call_with_vectors(&asked, &table, &vectors);
            let now = if done.number == 0 { sent(&done.answer) } else { vec![] };
            let mut expected = vectors.clone();
            for block in &now {
                assert!(!ever.contains(block), "block {block} is sent twice");
                assert_eq!(vectors[block * 512 + 1], 0, "block {block} was used before");
                let mut used = vectors[block * 512..][..512].to_vec();
                used[1] = 1;
                expected[block * 512..][..512].copy_from_slice(&summed(used));
            }
            assert!(now.windows(2).all(|two| two[0] < two[1]), "in file order");
            // Only what is sent is marked, and only byte 1 and the check word of it.
            assert!(done.vectors == expected, "another block or byte is changed");
            assert!(now.is_empty() || asked[5..8] == [0, 1, 0x2F] && result(&done.answer) == "B2001");
            assert_eq!(vectors::check(&done.vectors), Ok(40));
            assert_eq!(table::check(&done.table, 0), Ok(6));
            ever.extend(now);
            (table, vectors) = (done.table, done.vectors);
        }
        for block in &ever {
            assert_eq!(vectors[block * 512 + 1], 1, "block {block} is unused again");
        }
        all_sent += ever.len();
    }
    assert!(all_sent > 200, "{all_sent} sent");
}

#[test]
fn a_name_is_served_until_its_vectors_are_gone() {
    let table = households();
    let names = ["alice@isle", "bob@isle", "alice@isle", "alice@isle", "bob@isle"];
    let one = |(n, name): (usize, &&str)| vector(0, name, n as u8, b"xres");
    let mut vectors: Vec<u8> = names.iter().enumerate().map(one).collect::<Vec<Vec<u8>>>().concat();
    let ask = mar("alice@isle", "sip:alice@isle", 2, b"sip:s1");
    for (expected, number) in [("B2001", Some(2)), ("B2001", Some(1)), ("B5012", None), ("B5012", None)] {
        let done = call_with_vectors(&ask, &table, &vectors);
        assert_eq!(result(&done.answer), expected);
        let number = number.map(|number: u32| number.to_be_bytes().to_vec());
        assert_eq!(find(&done.answer, 607), number);
        vectors = done.vectors;
    }
    let used: Vec<u8> = vectors.chunks(512).map(|block| block[1]).collect();
    assert_eq!(used, [1, 0, 1, 1, 0]);
}
