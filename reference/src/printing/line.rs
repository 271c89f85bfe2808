//! A line of a listing: the offset, the bytes if they are asked for, and the words.

/// What is shown of a record beside its offset.
#[derive(Clone, Copy, Debug, PartialEq, Eq)]
pub enum Show {
    Words,
    BytesAndWords,
}

/// No record is longer, and of what cannot be read no more is shown.
const MOST: usize = 8;

/// The line for what stands at `place`; of no bytes the column is blank.
pub fn line(show: Show, place: usize, bytes: &[u8], words: &str) -> String {
    match show {
        Show::Words => format!("{place:>5}  {words}\n"),
        Show::BytesAndWords => format!("{place:>5}  {:<23}  {words}\n", digits(bytes)),
    }
}

fn digits(bytes: &[u8]) -> String {
    let shown = bytes.iter().take(MOST);
    let pairs: Vec<String> = shown.map(|byte| format!("{byte:02X}")).collect();
    pairs.join(" ")
}

/// A value by its kind and number: "0 plain, 1 cell, 2 code".
pub fn value(kind: u8, number: u32) -> String {
    match kind {
        0 => format!("plain {number}"),
        1 => format!("cell {number}"),
        2 => format!("code {number}"),
        _ => format!("value kind {kind} {number}"),
    }
}

#[cfg(test)]
mod tests {
    use super::*;

    #[test]
    fn the_column_of_bytes() {
        let cell = [0x20, 1, 9, 0, 5, 0, 0, 0xAB, 0x30];
        let whole = line(Show::BytesAndWords, 6, &cell, "cell 0");
        assert_eq!(whole, "    6  20 01 09 00 05 00 00 AB  cell 0\n");
        let short = line(Show::BytesAndWords, 65_535, &[0x0C], "C");
        assert_eq!(short, format!("65535  0C{}C\n", " ".repeat(23)));
        let none = line(Show::BytesAndWords, 0, &[], "end");
        assert_eq!(none, format!("    0{}end\n", " ".repeat(27)));
        assert_eq!(line(Show::Words, 0, &[1], "C"), "    0  C\n");
    }
}
