//! What the tests share: hex, tables of the isle, requests put together by hand, and calls.
#![allow(dead_code)]

use reference::gen::model::{RecordModel, TableModel};
use reference::message::Message;
use reference::refuse::LEAST_BUFFER;
use reference::serve::{parts, serve};
use reference::slip::Slip;
use reference::stated::Stated;

pub fn bytes(hex: &str) -> Vec<u8> {
    let digits: Vec<char> = hex.chars().filter(|c| !c.is_whitespace()).collect();
    digits.chunks(2).map(|pair| u8::from_str_radix(&pair.iter().collect::<String>(), 16).unwrap()).collect()
}

pub fn record(public: &str, private: &str) -> RecordModel {
    RecordModel {
        public: public.as_bytes().to_vec(),
        private: private.as_bytes().to_vec(),
        roaming: 1,
        ..RecordModel::default()
    }
}

/// Host `hss.isle`, realm `isle`, networks `isle` and `guest.example`.
pub fn isle(mut records: Vec<RecordModel>) -> TableModel {
    records.sort_by(|a, b| a.public.cmp(&b.public));
    let mut model = TableModel::of_the_isle();
    model.networks = vec![b"isle".to_vec(), b"guest.example".to_vec()];
    model.records = records;
    model
}

pub struct Done {
    /// The refusal's number, 0 if answered.
    pub number: u64,
    /// Of the AVP at fault, 0 if there is none.
    pub place: u64,
    pub value: u64,
    pub answer: Vec<u8>,
    pub table: Vec<u8>,
    pub vectors: Vec<u8>,
}

pub fn call(request: &[u8], table: &[u8], profile: &[u8]) -> Done {
    call_with_buffer(request, table, profile, &[], LEAST_BUFFER)
}

/// A call over a vector file, without profile.
pub fn call_with_vectors(request: &[u8], table: &[u8], vectors: &[u8]) -> Done {
    call_with_buffer(request, table, &[], vectors, LEAST_BUFFER)
}

pub fn call_with_buffer(request: &[u8], table: &[u8], profile: &[u8], vectors: &[u8], buffer: usize) -> Done {
    call_stating(Stated::OLDER, request, table, profile, vectors, buffer)
}

/// Calls, and checks that the buffer past the answer stays.
pub fn call_stating(
    stated: Stated,
    request: &[u8],
    table: &[u8],
    profile: &[u8],
    vectors: &[u8],
    buffer: usize,
) -> Done {
    let mut table = table.to_vec();
    let mut vectors = vectors.to_vec();
    let mut buffer = vec![0xA5; buffer];
    let (word, _) = serve(request, &mut table, profile, &mut vectors, &mut buffer, stated, Slip::NONE);
    let (number, place, value) = parts(word);
    let written = if number == 0 { value as usize } else { 0 };
    assert!(buffer[written..].iter().all(|byte| *byte == 0xA5));
    buffer.truncate(written);
    Done { number, place, value, answer: buffer, table, vectors }
}

pub fn avp(code: u32, data: &[u8]) -> Vec<u8> {
    let mut out = code.to_be_bytes().to_vec();
    let (flags, header) = if code >= 600 { (0xC0u32, 12) } else { (0x40, 8) };
    out.extend((flags << 24 | (header + data.len()) as u32).to_be_bytes());
    if code >= 600 {
        out.extend(10415u32.to_be_bytes());
    }
    out.extend(data);
    out.resize((out.len() + 3) / 4 * 4, 0);
    out
}

pub fn number(code: u32, value: u32) -> Vec<u8> {
    avp(code, &value.to_be_bytes())
}

pub fn message(command: u32, avps: &[Vec<u8>]) -> Vec<u8> {
    let body = avps.concat();
    let mut out = (1u32 << 24 | (20 + body.len()) as u32).to_be_bytes().to_vec();
    out.extend((0xC0u32 << 24 | command).to_be_bytes());
    for word in [16_777_216u32, 7, 9] {
        out.extend(word.to_be_bytes());
    }
    out.extend(body);
    out
}

/// Session-Id, 260, 277, 264, 296 and 283, and then these.
pub fn request(command: u32, own: &[Vec<u8>]) -> Vec<u8> {
    let mut avps = vec![
        avp(263, b"s;1"),
        avp(260, &[number(266, 10415), number(258, 16_777_216)].concat()),
        number(277, 1),
        avp(264, b"cscf.isle"),
        avp(296, b"isle"),
        avp(283, b"isle"),
    ];
    avps.extend_from_slice(own);
    message(command, &avps)
}

/// A SAR for one identity, without User-Name, that asks for the User-Data.
pub fn sar(public: &str, server_name: &[u8], asked_type: u32) -> Vec<u8> {
    request(301, &[avp(601, public.as_bytes()), avp(602, server_name), number(614, asked_type), number(624, 0)])
}

/// B or X with its number.
pub fn result(answer: &[u8]) -> String {
    reference::stats::result_of(answer).to_string()
}

/// The data of the answer's AVP of this code.
pub fn find(answer: &[u8], code: u32) -> Option<Vec<u8>> {
    Message(answer).avps().sound(Slip::NONE).iter().find(|avp| avp.code == code).map(|avp| avp.data.to_vec())
}

/// A block of a vector file, put together by the places that document 02 gives.
pub fn vector(used: u8, private: &str, rand_and_autn: u8, xres: &[u8]) -> Vec<u8> {
    let mut block = vec![0; 512];
    block[0] = 3;
    block[1] = used;
    block[2] = xres.len() as u8;
    block[3] = private.len() as u8;
    block[4..4 + private.len()].copy_from_slice(private.as_bytes());
    block[132..164].fill(rand_and_autn);
    block[164..164 + xres.len()].copy_from_slice(xres);
    block[180..196].fill(0xCC);
    block[196..212].fill(0x11);
    summed(block)
}

/// How many records a table says that it has.
pub fn records(table: &[u8]) -> usize {
    u32::from_be_bytes([table[8], table[9], table[10], table[11]]) as usize
}

/// The block with the check word that makes its words sum to zero.
pub fn summed(mut block: Vec<u8>) -> Vec<u8> {
    let words = block[..508].chunks(4).map(|word| u32::from_be_bytes([word[0], word[1], word[2], word[3]]));
    let sum = words.fold(0u32, u32::wrapping_add);
    block[508..].copy_from_slice(&sum.wrapping_neg().to_be_bytes());
    block
}

/// A header block of edition 2 by the places that the documents give, with so many records to follow.
pub fn header_of(count: u32, issue: u32) -> Vec<u8> {
    let mut block = vec![0; 512];
    block[..2].copy_from_slice(&[1, 2]);
    block[8..12].copy_from_slice(&count.to_be_bytes());
    block[13..15].copy_from_slice(&[8, 4]);
    block[16..24].copy_from_slice(b"hss.isle");
    block[80..84].copy_from_slice(b"isle");
    block[408..412].copy_from_slice(&issue.to_be_bytes());
    summed(block)
}

/// A record of it in state 0, of `p` and without a server name.
pub fn block_of(number: u8, public: &str, set: u16, issue: u32) -> Vec<u8> {
    let mut block = vec![0; 512];
    block[..2].copy_from_slice(&[2, 2]);
    block[7] = number;
    block[13..15].copy_from_slice(&[public.len() as u8, 1]);
    block[16..16 + public.len()].copy_from_slice(public.as_bytes());
    block[144] = b'p';
    block[406..408].copy_from_slice(&set.to_be_bytes());
    block[408..412].copy_from_slice(&issue.to_be_bytes());
    summed(block)
}

/// A result with its place.
pub fn is(result: &str, place: u64) -> (String, u64) {
    (result.to_string(), place)
}

pub fn flagged(mut avp: Vec<u8>, flags: u8) -> Vec<u8> {
    avp[4] = flags;
    avp
}

/// 612 with this scheme.
pub fn item(scheme: &[u8]) -> Vec<u8> {
    avp(612, &avp(608, scheme))
}

/// A MAR that asks for so many vectors.
pub fn mar(private: &str, public: &str, asked: u32, server_name: &[u8]) -> Vec<u8> {
    let identities = [avp(1, private.as_bytes()), avp(601, public.as_bytes())];
    request(303, &[&identities[..], &[item(b"Digest-AKAv1-MD5"), number(607, asked), avp(602, server_name)]].concat())
}
