//! Rows that are given once: a name, how much rarer than others a row may be, and when a case is one.

/// Of what the rows go by.
pub type Row<T> = (&'static str, u64, fn(&T) -> bool);

/// Those that hold.
pub fn shown<T>(rows: &[Row<T>], of: &T) -> Vec<String> {
    rows.iter().filter(|(_, _, holds)| holds(of)).map(|(row, ..)| row.to_string()).collect()
}

/// All of them, as rows that there must be, each behind these words.
pub fn all<T>(before: &str, rows: &[Row<T>]) -> Vec<(String, u64)> {
    rows.iter().map(|(row, times, _)| (format!("{before}{row}"), *times)).collect()
}
