//! The programs that read the files `table`, `profile` and, where it is there, `vectors` of the current directory.

use std::fs;
use std::io::ErrorKind;
use std::path::Path;

use crate::refuse::LEAST_BUFFER;
use crate::serve::{parts, serve};
use crate::slip::Slip;
use crate::stated::Stated;
use crate::table;
use crate::vectors;

/// The longest file that `answer` reads.
const LONGEST_FILE: usize = 65_536;

fn file(name: &str) -> Result<Vec<u8>, String> {
    fs::read(Path::new(name)).map_err(|error| format!("{name}: {error}"))
}

/// The vector file; none if it is not there.
fn vectors_file() -> Result<Option<Vec<u8>>, String> {
    match fs::read("vectors") {
        Ok(bytes) => Ok(Some(bytes)),
        Err(error) if error.kind() == ErrorKind::NotFound => Ok(None),
        Err(error) => Err(format!("vectors: {error}")),
    }
}

/// Says whether the table is sound, and the vector file where it is there.
pub fn check() -> Result<String, String> {
    let (table, profile, vectors) = (file("table")?, file("profile")?, vectors_file()?);
    let of_table = match table::check(&table, profile.len()) {
        Ok(count) => format!("sound, {count} records"),
        Err(block) => format!("block {block} is bad"),
    };
    let of_vectors = vectors.map(|vectors| match vectors::check(&vectors) {
        Ok(count) => format!("\nvectors sound, {count} blocks"),
        Err(block) => format!("\nvector block {block} is bad"),
    });
    Ok(of_table + &of_vectors.unwrap_or_default())
}

/// Answers a request, or says the number of the refusal. The files are only read.
pub fn answer(request: &[u8]) -> Result<Vec<u8>, String> {
    let (mut table, profile) = (file("table")?, file("profile")?);
    let mut vectors = vectors_file()?.unwrap_or_default();
    for (name, bytes) in [("table", &table), ("profile", &profile), ("vectors", &vectors)] {
        if bytes.len() > LONGEST_FILE {
            return Err(format!("{name}: longer than {LONGEST_FILE} bytes"));
        }
    }
    let mut buffer = vec![0; LEAST_BUFFER];
    let (word, _) = serve(request, &mut table, &profile, &mut vectors, &mut buffer, Stated::OLDER, Slip::NONE);
    match parts(word) {
        (0, _, length) => buffer.truncate(length as usize),
        (number, ..) => buffer = format!("refused {number}\n").into_bytes(),
    }
    Ok(buffer)
}
