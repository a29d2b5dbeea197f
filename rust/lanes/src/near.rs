//! The word that was probably meant.

/// The nearest of these words, if it is near enough to be a slip of the hand.
pub fn nearest<'w>(word: &str, words: impl IntoIterator<Item = &'w str>) -> Option<&'w str> {
    let length = word.chars().count();
    let measured = words
        .into_iter()
        .map(|other| (distance(word, other), other));
    // At least one letter must be the same.
    let near = measured.filter(|(distance, other)| {
        *distance <= length / 3 + 1 && *distance < length.max(other.chars().count())
    });
    near.min_by_key(|(distance, _)| *distance)
        .map(|(_, other)| other)
}

/// How many letters must be put in, left out, changed or swapped with their neighbour.
fn distance(left: &str, right: &str) -> usize {
    let left: Vec<char> = left.to_lowercase().chars().collect();
    let right: Vec<char> = right.to_lowercase().chars().collect();
    // A row holds the distances of one beginning of `left` to all beginnings of `right`.
    let mut older: Vec<usize> = Vec::new();
    let mut last: Vec<usize> = (0..=right.len()).collect();
    for i in 1..=left.len() {
        let mut row = vec![i];
        for j in 1..=right.len() {
            let changed = usize::from(left[i - 1] != right[j - 1]);
            let mut least = (last[j] + 1).min(row[j - 1] + 1).min(last[j - 1] + changed);
            let both = i > 1 && j > 1;
            if both && left[i - 1] == right[j - 2] && left[i - 2] == right[j - 1] {
                least = least.min(older[j - 2] + 1);
            }
            row.push(least);
        }
        older = std::mem::replace(&mut last, row);
    }
    last[right.len()]
}

#[cfg(test)]
mod tests {
    use super::*;

    #[test]
    fn distances_count_the_slips() {
        for (left, right, expected) in [
            ("", "ab", 2),
            ("run", "run", 0),
            ("jugde", "judge", 1),
            ("trce", "trace", 1),
            ("ok1", "OK", 1),
        ] {
            assert_eq!(distance(left, right), expected, "{left} {right}");
        }
    }

    #[test]
    fn a_word_that_is_far_is_not_meant() {
        assert_eq!(nearest("jugde", ["run", "judge"]), Some("judge"));
        assert_eq!(nearest("frobnicate", ["run", "judge"]), None);
        assert_eq!(nearest("x", ["y", "z"]), None);
        assert_eq!(nearest("X", ["y", "x"]), Some("x"));
    }
}
