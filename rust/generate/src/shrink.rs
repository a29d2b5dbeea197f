//! A smaller case that still fails.

use crate::pieces::{pieces, Piece};
use crate::Case;

/// The smallest case found that still satisfies `fails`, which this case must.
pub fn shrink(case: &Case, mut fails: impl FnMut(&Case) -> bool) -> Case {
    let mut smallest = case.clone();
    loop {
        let before = smallest.clone();
        drop_floats(&mut smallest, &mut fails);
        drop_statements(&mut smallest, &mut fails);
        drop_tests(&mut smallest, &mut fails);
        drop_pairs(&mut smallest, &mut fails);
        drop_runs(&mut smallest, &mut fails);
        drop_bytes(&mut smallest, &mut fails);
        shorten_memory(&mut smallest, &mut fails);
        lower_budget(&mut smallest, &mut fails);
        if smallest == before {
            return smallest;
        }
    }
}

/// Takes the candidate if it still fails.
fn take(smallest: &mut Case, candidate: Case, fails: &mut impl FnMut(&Case) -> bool) -> bool {
    let taken = candidate != *smallest && fails(&candidate);
    if taken {
        *smallest = candidate;
    }
    taken
}

/// The case without these bytes of its text.
fn without(case: &Case, start: usize, end: usize) -> Case {
    let mut shorter = case.clone();
    shorter.text.drain(start..end);
    shorter
}

/// Makes every float an int, so that what still has floats needs them.
fn drop_floats(smallest: &mut Case, fails: &mut impl FnMut(&Case) -> bool) {
    let ints = pieces(&smallest.text).into_iter().flat_map(|piece| {
        let whole = piece.bytes.strip_suffix(b".0");
        match piece.bytes {
            b"float" => b"int",
            other => whole.unwrap_or(other),
        }
    });
    let mut candidate = smallest.clone();
    candidate.text = ints.copied().collect();
    take(smallest, candidate, fails);
}

/// Drops what stands between two of the places where statements begin and end.
fn drop_statements(smallest: &mut Case, fails: &mut impl FnMut(&Case) -> bool) {
    let mut first = 0;
    loop {
        let bounds = statement_bounds(&smallest.text);
        if first >= bounds.len() {
            return;
        }
        let ends = bounds[first + 1..].iter().rev();
        let shorter = ends
            .map(|end| without(smallest, bounds[first], *end))
            .find(|candidate| fails(candidate));
        match shorter {
            Some(shorter) => *smallest = shorter,
            None => first += 1,
        }
    }
}

/// The text's start and every place after a `;`, `{` or `}`.
fn statement_bounds(text: &[u8]) -> Vec<usize> {
    let ends = pieces(text).into_iter().filter_map(|piece| {
        let ends = matches!(piece.bytes, b";" | b"{" | b"}");
        ends.then_some(piece.start + 1)
    });
    std::iter::once(0).chain(ends).collect()
}

/// Drops a `while` or an `if` with its condition and its `else`, and keeps the branches.
fn drop_tests(smallest: &mut Case, fails: &mut impl FnMut(&Case) -> bool) {
    let mut first = 0;
    loop {
        let cut = pieces(&smallest.text);
        if first >= cut.len() {
            return;
        }
        let tests = matches!(cut[first].bytes, b"if" | b"while");
        let open = cut[first..].iter().find(|piece| piece.bytes == b"(");
        let close = open.and_then(|open| closing(&smallest.text, open.start));
        let close = match (tests, close) {
            (true, Some(close)) => close,
            _ => {
                first += 1;
                continue;
            }
        };
        let start = cut[first].start;
        let candidate = match matching_else(&cut[first..]) {
            Some(other) if other > close => {
                without(&without(smallest, other, other + 4), start, close + 1)
            }
            _ => without(smallest, start, close + 1),
        };
        if !take(smallest, candidate, fails) {
            first += 1;
        }
    }
}

/// Where the `else` of the `if` that stands first begins.
fn matching_else(cut: &[Piece<'_>]) -> Option<usize> {
    let mut depth = 0;
    for piece in cut {
        depth += i32::from(piece.bytes == b"if") - i32::from(piece.bytes == b"else");
        if depth == 0 {
            return (piece.bytes == b"else").then_some(piece.start);
        }
    }
    None
}

/// Drops an opening brace or parenthesis together with the one that closes it.
fn drop_pairs(smallest: &mut Case, fails: &mut impl FnMut(&Case) -> bool) {
    let mut at = 0;
    while at < smallest.text.len() {
        let close = match closing(&smallest.text, at) {
            Some(close) => close,
            None => {
                at += 1;
                continue;
            }
        };
        let mut candidate = smallest.clone();
        candidate.text.remove(close);
        candidate.text.remove(at);
        if !take(smallest, candidate, fails) {
            at += 1;
        }
    }
}

/// Where what opens at this byte closes, if something opens there.
fn closing(text: &[u8], at: usize) -> Option<usize> {
    let (open, close) = match text[at] {
        b'{' => (b'{', b'}'),
        b'(' => (b'(', b')'),
        _ => return None,
    };
    let mut depth = 0;
    for (index, byte) in text.iter().enumerate().skip(at) {
        depth += i32::from(*byte == open) - i32::from(*byte == close);
        if depth == 0 {
            return Some(index);
        }
    }
    None
}

/// Drops runs of pieces, long runs first.
fn drop_runs(smallest: &mut Case, fails: &mut impl FnMut(&Case) -> bool) {
    for run in [64, 32, 16, 8, 6, 5, 4, 3, 2, 1] {
        let mut first = 0;
        loop {
            let cut = pieces(&smallest.text);
            if first + run > cut.len() {
                break;
            }
            let last = cut[first + run - 1];
            let (start, end) = (cut[first].start, last.start + last.bytes.len());
            let candidate = without(smallest, start, end);
            if !take(smallest, candidate, fails) {
                first += 1;
            }
        }
    }
}

/// Drops single bytes.
fn drop_bytes(smallest: &mut Case, fails: &mut impl FnMut(&Case) -> bool) {
    let mut at = 0;
    while at < smallest.text.len() {
        let candidate = without(smallest, at, at + 1);
        if !take(smallest, candidate, fails) {
            at += 1;
        }
    }
}

/// Cuts the memory's end off and sets bytes to 0.
fn shorten_memory(smallest: &mut Case, fails: &mut impl FnMut(&Case) -> bool) {
    let mut cut = smallest.memory.len();
    while cut > 0 {
        let mut candidate = smallest.clone();
        let length = candidate.memory.len();
        candidate.memory.truncate(length.saturating_sub(cut));
        if !take(smallest, candidate, fails) {
            cut /= 2;
        }
    }
    for at in 0..smallest.memory.len() {
        let mut candidate = smallest.clone();
        candidate.memory[at] = 0;
        take(smallest, candidate, fails);
    }
}

/// Lowers the budget.
fn lower_budget(smallest: &mut Case, fails: &mut impl FnMut(&Case) -> bool) {
    let mut less = smallest.budget;
    while less > 0 {
        let mut candidate = smallest.clone();
        candidate.budget = candidate.budget.saturating_sub(less);
        if !take(smallest, candidate, fails) {
            less /= 2;
        }
    }
}
