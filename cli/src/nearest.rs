//! The nearest right word to a wrong one.

/// Of the right words the one that is nearest, if it is near: fewer than half the letters are
/// otherwise. Dashes in front do not count.
pub fn nearest<'r>(word: &str, right: &[&'r str]) -> Option<&'r str> {
    let letters = |word: &str| -> Vec<char> { word.trim_start_matches('-').chars().collect() };
    let word = letters(word);
    let near = right.iter().filter_map(|candidate| {
        let letters = letters(candidate);
        let distance = distance(&word, &letters);
        (2 * distance < word.len().max(letters.len())).then_some((distance, *candidate))
    });
    near.min_by_key(|(distance, _)| *distance)
        .map(|(_, found)| found)
}

/// How many letters have to be put in, taken out, changed, or exchanged with the next, to make one
/// word of the other.
fn distance(one: &[char], other: &[char]) -> usize {
    // Row i has the distances of the first i letters of the one.
    let mut rows: Vec<Vec<usize>> = vec![(0..=other.len()).collect()];
    for i in 1..=one.len() {
        let mut row = vec![i];
        for j in 1..=other.len() {
            let changed = usize::from(one[i - 1] != other[j - 1]);
            let mut least = (rows[i - 1][j - 1] + changed)
                .min(rows[i - 1][j] + 1)
                .min(row[j - 1] + 1);
            if i > 1 && j > 1 && one[i - 1] == other[j - 2] && one[i - 2] == other[j - 1] {
                least = least.min(rows[i - 2][j - 2] + 1);
            }
            row.push(least);
        }
        rows.push(row);
    }
    rows[one.len()][other.len()]
}

#[cfg(test)]
mod tests {
    use super::*;

    fn apart(one: &str, other: &str) -> usize {
        let letters = |word: &str| word.chars().collect::<Vec<_>>();
        distance(&letters(one), &letters(other))
    }

    #[test]
    fn distances() {
        assert_eq!(apart("", ""), 0);
        assert_eq!(apart("", "run"), 3);
        assert_eq!(apart("list", ""), 4);
        assert_eq!(apart("check", "check"), 0);
        assert_eq!(apart("chekc", "check"), 1);
        assert_eq!(apart("evnts", "events"), 1);
        assert_eq!(apart("ruin", "run"), 1);
        assert_eq!(apart("lisd", "list"), 1);
    }

    #[test]
    fn near_and_far() {
        let verbs = ["check", "run", "list", "--version"];
        assert_eq!(nearest("chekc", &verbs), Some("check"));
        assert_eq!(nearest("urn", &verbs), Some("run"));
        assert_eq!(nearest("version", &verbs), Some("--version"));
        assert_eq!(nearest("-jsn", &["--json"]), Some("--json"));
        assert_eq!(nearest("frobnicate", &verbs), None);
        assert_eq!(nearest("", &verbs), None);
        assert_eq!(nearest("-x", &["-h"]), None);
    }
}
