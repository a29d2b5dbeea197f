//! Generated cases on the archive and on the independent implementation.
//!
//! `RUIHMENTO_SEED` and `RUIHMENTO_CASES` choose other cases than the gate's; the program
//! `against` makes longer runs.

use against::sweep;
use generate::Sort;
use std::io::Write;

/// The number in this environment variable, or another where it is not set.
fn chosen(variable: &str, otherwise: u64) -> u64 {
    let value = match std::env::var(variable) {
        Ok(value) => value,
        Err(_) => return otherwise,
    };
    let number = value.parse();
    number.unwrap_or_else(|_| panic!("{variable} is {value:?}, which is no whole number"))
}

#[test]
fn archive_and_independent_implementation_agree() {
    let seed = chosen("RUIHMENTO_SEED", 1);
    let cases = chosen("RUIHMENTO_CASES", 20_000);
    // Past the capture of tests, so that the seed is always on record.
    let _ = writeln!(std::io::stderr(), "seed {seed}, {cases} cases");
    let tally = match sweep(seed, 0..cases, |_| {}) {
        Ok(tally) => tally,
        Err(found) => panic!("{found}"),
    };
    let (calls, images) = (tally.calls, tally.images);
    let _ = writeln!(
        std::io::stderr(),
        "{calls} calls on each side, {images} images run by run_each"
    );
    assert_eq!(tally.cases, cases);
    if cases >= 20_000 {
        for (_, sort) in Sort::ALL {
            let count = tally.sorts.get(sort).copied().unwrap_or(0);
            assert!(count >= 200, "{sort} occurs {count} times");
        }
        for code in 0..=13 {
            let count = tally.codes.get(&code).copied().unwrap_or(0);
            assert!(count >= 50, "code {code} occurs {count} times");
        }
        assert!(images >= 100_000, "{images} images");
        let percent = 100 * tally.long / tally.accepted;
        assert!((30..=40).contains(&percent), "{percent} % have long blocks");
        let percent = 100 * tally.floats / tally.accepted;
        assert!((35..=55).contains(&percent), "{percent} % have floats");
    }
    assert!(tally.codes.keys().all(|code| *code <= 13), "{tally:?}");
}
