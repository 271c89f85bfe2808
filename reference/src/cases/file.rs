//! The file of test books: each book's length in 4 bytes, little-endian, then its bytes.

use std::io;

/// Writes the books one after another.
pub fn join(books: &[Vec<u8>]) -> Vec<u8> {
    let mut bytes = Vec::new();
    for book in books {
        push(&mut bytes, book);
    }
    bytes
}

/// Appends one part: its length, then its bytes.
pub fn push(bytes: &mut Vec<u8>, part: &[u8]) {
    bytes.extend_from_slice(&(part.len() as u32).to_le_bytes());
    bytes.extend_from_slice(part);
}

/// The books in the file, in order.
pub fn split(bytes: &[u8]) -> io::Result<Vec<&[u8]>> {
    all(bytes, first)
}

/// Takes what stands first from some bytes, and gives what is behind it too.
type First<'b, T> = fn(&'b [u8]) -> Option<(T, &'b [u8])>;

/// All that `first` gives, one after another, until no bytes are left.
pub fn all<'b, T>(mut bytes: &'b [u8], first: First<'b, T>) -> io::Result<Vec<T>> {
    let mut found = Vec::new();
    while !bytes.is_empty() {
        let (one, rest) = first(bytes).ok_or_else(|| io::Error::other("the file is cut"))?;
        found.push(one);
        bytes = rest;
    }
    Ok(found)
}

/// The first part and the bytes behind it, unless the file ends inside it.
pub fn first(bytes: &[u8]) -> Option<(&[u8], &[u8])> {
    let (length, rest) = bytes.split_first_chunk::<4>()?;
    rest.split_at_checked(u32::from_le_bytes(*length) as usize)
}

#[cfg(test)]
mod tests {
    use super::*;

    #[test]
    fn split_gives_back_what_join_wrote() {
        let books = vec![vec![1, 3], vec![], vec![7; 300]];
        let bytes = join(&books);
        assert_eq!(&bytes[..6], &[2, 0, 0, 0, 1, 3]);
        assert_eq!(split(&bytes).unwrap(), books);
    }

    #[test]
    fn a_cut_file_is_an_error() {
        assert!(split(&[2, 0, 0]).is_err());
        assert!(split(&[2, 0, 0, 0, 1]).is_err());
        assert!(split(&[]).unwrap().is_empty());
    }
}
