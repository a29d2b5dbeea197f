//! Damaged files of every sort: the program never panics, and ends with a status that the help
//! names.

mod common;

use common::{file, folder, lanes};
use generate::Random;

/// The statuses that a damaged file may lead to: 0 to 3, or samples that do not fit.
const STATUSES: [i32; 5] = [0, 1, 2, 3, 65];

/// These bytes with a few of them changed, left out, put in or cut off.
fn damaged(bytes: &[u8], random: &mut Random) -> Vec<u8> {
    let mut bytes = bytes.to_vec();
    for _ in 0..random.below(4) + 1 {
        let at = random
            .below(bytes.len() + 1)
            .min(bytes.len().saturating_sub(1));
        let byte = random.below(256) as u8;
        match random.below(4) {
            _ if bytes.is_empty() => bytes.push(byte),
            0 => bytes[at] = byte,
            1 => bytes.insert(at, byte),
            2 => drop(bytes.remove(at)),
            _ => bytes.truncate(at),
        }
    }
    bytes
}

/// A damaged copy of a file of the folder.
fn copy(name: &str, random: &mut Random) -> String {
    let bytes = std::fs::read(folder().join(name)).expect("the file can be read");
    file(&format!("damaged-{name}"), &damaged(&bytes, random))
}

#[test]
fn no_damaged_file_is_a_panic() {
    for index in 0..12 {
        let mut random = Random::new(3, index);
        let mut damaged = |name: &str| copy(name, &mut random);
        let (text, memory) = (damaged("routine.txt"), damaged("memory.bin"));
        let (lanes_csv, blocks_csv) = (damaged("lanes.csv"), damaged("blocks.csv"));
        let (before, after) = (damaged("before.bin"), damaged("after.bin"));
        let page = file("damaged.page", b"");
        for arguments in [
            &["judge", &text[..]][..],
            &["template", &text],
            &["run", &text, &memory, "--json"],
            &["trace", &text, &memory, "--budget", "40"],
            &["trace", "mask.txt", &memory, "--lane", "1"],
            &[
                "trace", "loop.txt", &memory, "--html", &page, "--budget", "40",
            ],
            &["run", "routine.txt", "--csv", &lanes_csv],
            &["run", "routine.txt", "--blocks", &blocks_csv],
            &["run", "routine.txt", "--blocks", &before, "--csv-out", "-"],
            &["compare", "routine.txt", &before, &after],
            &["compare", &text, "before.bin", &after, "--json"],
        ] {
            let output = lanes(arguments);
            let told = String::from_utf8_lossy(&output.stderr);
            assert!(!told.contains("panicked"), "{index} {arguments:?}: {told}");
            let status = output.status.code().expect("the program exits");
            assert!(
                STATUSES.contains(&status),
                "{index} {arguments:?}: {status}"
            );
        }
    }
}
