//! The program's output, compared with files in `golden/`.
//!
//! With `LANES_GOLDEN=write` the files are written instead; read the difference before it is
//! kept.

mod common;

use common::{folder, lanes};

/// What stands between standard output and standard error in a file.
const ERROR: &str = "-- on standard error:\n";

/// The program's output is this file's, and its status this one.
fn check(arguments: &str, status: i32, golden: &str) {
    let words: Vec<&str> = arguments.split_whitespace().collect();
    let output = lanes(&words);
    let mut shown = String::from_utf8_lossy(&output.stdout).into_owned();
    if !output.stderr.is_empty() {
        shown.push_str(ERROR);
        shown.push_str(&String::from_utf8_lossy(&output.stderr));
    }
    let path = folder().join(golden);
    if std::env::var_os("LANES_GOLDEN").map_or(false, |word| word == "write") {
        std::fs::write(&path, &shown).expect("the file can be written");
    }
    let expected = std::fs::read(&path).expect("the file can be read");
    assert_eq!(shown, String::from_utf8_lossy(&expected), "{arguments}");
    assert_eq!(output.status.code(), Some(status), "{arguments}");
}

#[test]
fn routine_of_document_01_as_text() {
    check("judge routine.txt", 0, "routine.judge");
    check("run routine.txt memory.bin", 0, "routine.run");
    check("run routine.txt memory.bin --budget 6", 3, "routine.run-6");
    check("trace routine.txt memory.bin", 0, "routine.trace");
    check(
        "trace routine.txt memory.bin --budget=6 --from 5",
        3,
        "routine.trace-5-6",
    );
}

#[test]
fn routine_of_document_01_as_json() {
    check("judge routine.txt --json", 0, "routine.judge.json");
    check("run --json routine.txt memory.bin", 0, "routine.run.json");
    check(
        "run routine.txt memory.bin --budget 6 --json",
        3,
        "routine.run-6.json",
    );
    check(
        "trace routine.txt memory.bin --json",
        0,
        "routine.trace.json",
    );
}

#[test]
fn samples_by_name() {
    let named = "run routine.txt --set ok=1,0,1,0 --set s=4,7,25,90";
    check(named, 0, "routine.named");
    check("run routine.txt --csv lanes.csv", 0, "routine.named");
    check("run routine.txt --csv wide.csv", 0, "routine.named");
    check("run routine.txt --set ok=1 --set s=-3", 0, "routine.filled");
    check("run twice.txt --set x@1:7=5", 0, "twice.named");
    check("run twice.txt --set x=5", 65, "twice.which");
    check("template routine.txt", 0, "routine.template");
    check("template routine.txt --rows", 0, "routine.template-rows");
    check("template twice.txt --all", 0, "twice.template");
}

#[test]
fn many_blocks() {
    check("run routine.txt --blocks before.bin", 0, "blocks.run");
    check("run routine.txt --blocks blocks.csv", 0, "blocks.csv.run");
    check(
        "run routine.txt --blocks before.bin --json",
        0,
        "blocks.run.json",
    );
    check(
        "run routine.txt --blocks before.bin --csv-out -",
        0,
        "blocks.run.csv",
    );
    check(
        "run routine.txt --blocks before.bin --budget 6",
        3,
        "blocks.run-6",
    );
    check(
        "trace routine.txt --blocks before.bin --block 1 --from 5",
        0,
        "blocks.trace-1",
    );
}

#[test]
fn recorded_blocks_are_compared() {
    check(
        "compare routine.txt before.bin after.bin",
        0,
        "compare.same",
    );
    check(
        "compare routine.txt before.bin wrong.bin",
        1,
        "compare.wrong",
    );
    check(
        "compare routine.txt before.bin wrong.bin --show 1",
        1,
        "compare.wrong-1",
    );
    check(
        "compare routine.txt before.bin wrong.bin --json",
        1,
        "compare.wrong.json",
    );
    check(
        "compare routine.txt before.bin memory.bin",
        1,
        "compare.ends",
    );
    check(
        "compare routine.txt before.bin loop.bin",
        65,
        "compare.part",
    );
    check(
        "compare lengths.txt before.bin after.bin",
        1,
        "lengths.judge",
    );
}

#[test]
fn loop_with_lanes_that_leave() {
    check("trace loop.txt loop.bin", 0, "loop.trace");
    check("trace loop.txt loop.bin --json", 0, "loop.trace.json");
    check("trace loop.txt loop.bin --lane 0", 0, "loop.trace-lane-0");
}

#[test]
fn traces_with_more_beside_them() {
    check(
        "trace routine.txt memory.bin --watch s --watch ok",
        0,
        "routine.trace-watch",
    );
    check(
        "trace routine.txt memory.bin --lane 2 --from 3 --to 7",
        0,
        "routine.trace-lane-2",
    );
    check("trace wide.txt --set v=1000000007", 0, "wide.trace");
    check(
        "trace wide.txt --set v=1000000007 --width 60",
        0,
        "wide.trace-60",
    );
    check("trace mask.txt --set ok=1,0,1,0", 0, "mask.trace");
    check("trace scalar.txt --set m=1,0 --lane 1", 0, "scalar.trace");
}

/// A card's 64 samples: the lanes stand on lines that have their numbers.
#[test]
fn blocks_of_64_lanes() {
    check("judge card.txt", 0, "card.judge");
    check("template card.txt", 0, "card.template");
    for width in ["80", "120"] {
        let within = format!("card.txt --csv card.csv --width {width}");
        check(&format!("run {within}"), 0, &format!("card.run-{width}"));
        check(
            &format!("trace {within}"),
            0,
            &format!("card.trace-{width}"),
        );
    }
    let run = "run card.txt --csv card.csv";
    check(&format!("{run} --csv-out -"), 0, "card.run.csv");
    check(&format!("{run} --json"), 0, "card.run.json");
    let trace = "trace card.txt --csv card.csv --from 5 --to 8";
    let beside = format!("{trace} --watch late --watch s --lane 63 --width 120");
    check(&beside, 0, "card.trace-watch");
    check(&format!("{trace} --width 400"), 0, "card.trace-400");
    let compare = "compare card.txt card-before.bin card-after.bin";
    check(compare, 1, "card.compare");
}

/// Amplitudes as floats: decimals that read back, NaN and infinities in and out.
#[test]
fn levels_in_floats() {
    check("judge levels.txt", 0, "levels.judge");
    check("judge levels.txt --json", 0, "levels.judge.json");
    check("template levels.txt --rows", 0, "levels.template-rows");
    let samples = "levels.txt --csv levels.csv --set offset=0.75";
    check(&format!("run {samples}"), 0, "levels.run");
    check(&format!("run {samples} --json"), 0, "levels.run.json");
    check(&format!("run {samples} --csv-out -"), 0, "levels.run.csv");
    check(&format!("trace {samples}"), 0, "levels.trace");
    check(&format!("trace {samples} --json"), 0, "levels.trace.json");
    let beside = format!("trace {samples} --lane 1 --watch level --from 5 --width 120");
    check(&beside, 0, "levels.trace-lane-1");
    let blocks = "run levels.txt --blocks levels-before.bin";
    check(blocks, 0, "levels.blocks");
    check(&format!("{blocks} --json"), 0, "levels.blocks.json");
    let compare = "compare levels.txt levels-before.bin";
    check(
        &format!("{compare} levels-after.bin"),
        0,
        "levels.compare-same",
    );
    check(&format!("{compare} levels-wrong.bin"), 1, "levels.compare");
    check(
        &format!("{compare} levels-wrong.bin --json"),
        1,
        "levels.compare.json",
    );
    check("run levels.txt --set level=1,5", 65, "levels.wrong-set");
    check("run levels.txt --set level=1e39", 65, "levels.past-set");
    check("run levels.txt --set ok=0.5", 65, "levels.bool-set");
}

/// However wide the values are, no line is wider than there is room for.
#[test]
fn lines_of_64_lanes_keep_the_width() {
    for values in ["s=7", "s=-2147483640"] {
        for width in ["70", "80", "100", "120", "200"] {
            for command in ["run", "trace"] {
                let words = [
                    "card.txt", "--set", values, "--set", "ok=1", "--width", width,
                ];
                let output = lanes(&[&[command], &words[..]].concat());
                let shown = String::from_utf8_lossy(&output.stdout).into_owned();
                let most = shown.lines().map(|line| line.chars().count()).max();
                assert!(most <= width.parse().ok(), "{most:?}: {shown}");
            }
        }
    }
}

#[test]
fn refusals_as_json() {
    check("judge lengths.txt --json", 1, "lengths.judge.json");
    check("run lengths.txt memory.bin", 1, "lengths.judge");
    check("trace lengths.txt memory.bin", 1, "lengths.judge");
    check("template lengths.txt", 1, "lengths.judge");
}

#[test]
fn memory_that_is_too_short() {
    check("run routine.txt loop.bin", 2, "routine.short");
    check("trace routine.txt loop.bin", 2, "routine.short");
    check("run routine.txt loop.bin --json", 2, "routine.short.json");
}

#[test]
fn memory_of_zeros() {
    check("run routine.txt", 0, "routine.zeros");
}
