//! The name that was meant.

/// The name that is most like this one; none where every one is quite another.
pub(crate) fn nearest<'n>(name: &str, names: impl Iterator<Item = &'n str>) -> Option<&'n str> {
    let distances = names.map(|known| (distance(name.as_bytes(), known.as_bytes()), known));
    let near = distances.filter(|(distance, known)| 3 * distance <= name.len().max(known.len()));
    near.min_by_key(|(distance, _)| *distance)
        .map(|(_, known)| known)
}

/// How many bytes must be changed, added or left out to make one of the other, where a change of
/// case alone is none.
fn distance(one: &[u8], other: &[u8]) -> usize {
    // The distances from the bytes of `one` so far to each beginning of `other`.
    let mut row: Vec<usize> = (0..=other.len()).collect();
    for (at, byte) in one.iter().enumerate() {
        let mut diagonal = row[0];
        row[0] = at + 1;
        for (column, against) in other.iter().enumerate() {
            let changed = diagonal + usize::from(!byte.eq_ignore_ascii_case(against));
            diagonal = row[column + 1];
            row[column + 1] = changed.min(diagonal + 1).min(row[column] + 1);
        }
    }
    row[other.len()]
}

#[cfg(test)]
mod tests {
    use super::nearest;

    /// The nearest of these names, which are separated by spaces.
    fn among<'n>(name: &str, names: &'n str) -> Option<&'n str> {
        nearest(name, names.split(' '))
    }

    #[test]
    fn a_slip_is_recognised() {
        assert_eq!(among("sampel", "ok sample limit"), Some("sample"));
        assert_eq!(among("limits", "ok sample limit"), Some("limit"));
        assert_eq!(among("OK", "ok sample limit"), Some("ok"));
        assert_eq!(
            among("sample_1", "sample_12 sample_2 other"),
            Some("sample_12")
        );
    }

    #[test]
    fn quite_another_name_is_not_taken_for_it() {
        assert_eq!(among("x", "ok s t"), None);
        assert_eq!(among("", "ok s t"), None);
        assert_eq!(among("pressure", "ok sample limit"), None);
        assert_eq!(nearest("x", std::iter::empty()), None);
    }
}
