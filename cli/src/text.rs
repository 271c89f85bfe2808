//! Hexadecimal text.

/// What is no text, and where: lines and columns count from 1.
#[derive(Debug, PartialEq, Eq)]
pub struct Wrong {
    pub line: usize,
    pub column: usize,
    pub what: String,
}

/// What a file looks like of which nobody said whether it is text.
#[derive(Debug, PartialEq, Eq)]
pub enum Look {
    /// Digits, white space and commas alone, and the bytes that they are.
    Text(Vec<u8>),
    /// So too, but the two digits of a byte stand apart.
    Unpaired(Vec<u8>),
    /// So too, but with an odd number of digits.
    OddText,
    /// Other text.
    OtherText,
    Bytes,
}

/// White space, as C has it.
fn is_space(byte: u8) -> bool {
    matches!(byte, b' ' | b'\t'..=b'\r')
}

/// What a file looks like.
pub fn look(file: &[u8]) -> Look {
    let is_spelled = |byte: &u8| byte.is_ascii_hexdigit() || is_space(*byte) || *byte == b',';
    if !file.iter().all(is_spelled) {
        let is_printable = |byte: &u8| !byte.is_ascii_control() || is_space(*byte);
        let text = file.iter().all(is_printable);
        return if text { Look::OtherText } else { Look::Bytes };
    }
    let digits = file.iter().copied().filter(u8::is_ascii_hexdigit);
    let digits: Vec<u8> = digits.collect();
    let bytes = bytes_of(&digits).collect();
    match digits.len() % 2 {
        0 if has_odd_run(file) => Look::Unpaired(bytes),
        0 => Look::Text(bytes),
        _ => Look::OddText,
    }
}

/// An unbroken run of digits has an odd number of them.
fn has_odd_run(text: &[u8]) -> bool {
    let mut runs = text.split(|byte| !byte.is_ascii_hexdigit());
    runs.any(|run| run.len() % 2 == 1)
}

/// The bytes of text with comments, `0x` and separators: digits in either case, an even number of
/// them in every unbroken run.
pub fn parse(text: &[u8]) -> Result<Vec<u8>, Wrong> {
    const BYTE_ORDER_MARK: &[u8] = b"\xEF\xBB\xBF";
    let text = text.strip_prefix(BYTE_ORDER_MARK).unwrap_or(text);
    let mut bytes = Vec::with_capacity(text.len() / 2);
    for (i, line) in text.split(|byte| *byte == b'\n').enumerate() {
        parse_line(line, &mut bytes).map_err(|(at, what)| Wrong {
            line: i + 1,
            column: at + 1,
            what,
        })?;
    }
    Ok(bytes)
}

/// What is wrong in a line, behind so many bytes of it. Up to there it is ASCII.
type Slip = (usize, String);

fn is_separator(byte: u8) -> bool {
    is_space(byte) || matches!(byte, b',' | b':' | b';')
}

fn parse_line(line: &[u8], bytes: &mut Vec<u8>) -> Result<(), Slip> {
    let mut at = 0;
    while at < line.len() {
        match line[at] {
            b'#' => return Ok(()),
            byte if is_separator(byte) => at += 1,
            _ => at = parse_run(line, at, bytes)?,
        }
    }
    Ok(())
}

/// A run of digits, and `0x` before it if it is there; gives where it ends.
fn parse_run(line: &[u8], start: usize, bytes: &mut Vec<u8>) -> Result<usize, Slip> {
    let prefixed = matches!(line[start..], [b'0', b'x' | b'X', ..]);
    let from = if prefixed { start + 2 } else { start };
    let rest = &line[from..];
    let length = rest.iter().take_while(|byte| byte.is_ascii_hexdigit());
    let (digits, behind) = rest.split_at(length.count());
    match behind {
        [] | [b'#', ..] => {}
        [byte, ..] if is_separator(*byte) => {}
        _ => return Err((from + digits.len(), wrong_character(behind))),
    }
    match digits.len() {
        0 => Err((start, "no digit behind 0x".to_string())),
        n if n % 2 == 1 => Err((start, "an odd number of digits".to_string())),
        n => {
            bytes.extend(bytes_of(digits));
            Ok(from + n)
        }
    }
}

/// What stands where a digit should.
fn wrong_character(rest: &[u8]) -> String {
    let front = &rest[..rest.len().min(4)];
    let chunk = front.utf8_chunks().next();
    let letter = chunk.and_then(|chunk| chunk.valid().chars().next());
    match letter {
        Some(letter) if letter.is_ascii_graphic() || letter.is_alphanumeric() => {
            format!("'{letter}' is no hexadecimal digit")
        }
        Some(letter) if !letter.is_control() => {
            format!("U+{:04X} is no hexadecimal digit", u32::from(letter))
        }
        _ => format!("byte {:02X} is no text", rest[0]),
    }
}

/// The bytes of an even number of digits.
fn bytes_of(digits: &[u8]) -> impl Iterator<Item = u8> + '_ {
    let value = |digit: u8| match digit {
        b'0'..=b'9' => digit - b'0',
        _ => (digit | 0x20) - b'a' + 10,
    };
    digits
        .chunks_exact(2)
        .map(move |pair| 16 * value(pair[0]) + value(pair[1]))
}

#[cfg(test)]
mod tests {
    use super::*;

    #[test]
    fn looks() {
        assert_eq!(
            look(b" 01,0C\r\n30\x0B0c\tfF"),
            Look::Text(vec![1, 12, 48, 12, 255])
        );
        assert_eq!(look(b""), Look::Text(vec![]));
        assert_eq!(look(b"0 1 03"), Look::Unpaired(vec![1, 3]));
        assert_eq!(look(b"01 3"), Look::OddText);
        assert_eq!(look(b"0x01"), Look::OtherText);
        assert_eq!(look("01 # é".as_bytes()), Look::OtherText);
        assert_eq!(look(&[1, 3, 48, 12]), Look::Bytes);
        assert_eq!(look(b"01\x00"), Look::Bytes);
    }

    #[test]
    fn text() {
        let text = "\u{feff}01 03, 0x10:12;0X00fF # é, any thing\r\n\r\n#\n0a#b";
        assert_eq!(parse(text.as_bytes()).unwrap(), [1, 3, 16, 18, 0, 255, 10]);
        assert_eq!(parse(b"").unwrap(), []);
        assert_eq!(parse(b"# 1\xFF\x00").unwrap(), []);
    }

    /// `LINE:COLUMN: what is wrong`.
    fn wrong(text: &[u8]) -> String {
        let Wrong { line, column, what } = parse(text).unwrap_err();
        format!("{line}:{column}: {what}")
    }

    #[test]
    fn no_text() {
        assert_eq!(wrong(b"01 0g"), "1:5: 'g' is no hexadecimal digit");
        assert_eq!(wrong(b"01\r\n# x\n 3"), "3:2: an odd number of digits");
        assert_eq!(wrong(b"01 033 10"), "1:4: an odd number of digits");
        assert_eq!(wrong(b"0x123"), "1:1: an odd number of digits");
        assert_eq!(wrong(b"01 0x 03"), "1:4: no digit behind 0x");
        assert_eq!(wrong(b"010x03"), "1:4: 'x' is no hexadecimal digit");
        assert_eq!(wrong("01 é".as_bytes()), "1:4: 'é' is no hexadecimal digit");
        let mark = "\u{feff}\u{feff}".as_bytes();
        assert_eq!(wrong(mark), "1:1: U+FEFF is no hexadecimal digit");
        assert_eq!(wrong(b"\x01\x03"), "1:1: byte 01 is no text");
        assert_eq!(wrong(b"01\n\xFF"), "2:1: byte FF is no text");
        assert_eq!(wrong(b"-"), "1:1: '-' is no hexadecimal digit");
    }
}
