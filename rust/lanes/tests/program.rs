//! Arguments, files and exit statuses of the program.

mod common;

use common::{command, file, lanes, lanes_with};
use std::path::Path;
use std::process::{Output, Stdio};

/// What the program says on standard error, and its status; nothing is shown beside it.
fn told(arguments: &[&str]) -> (String, i32) {
    let output = lanes(arguments);
    assert_eq!(output.stdout, b"", "{arguments:?}");
    let told = String::from_utf8(output.stderr).expect("the message is UTF-8");
    (told, output.status.code().expect("the program exits"))
}

/// Status, standard output, standard error.
fn all(output: Output) -> (Option<i32>, String, String) {
    (
        output.status.code(),
        String::from_utf8(output.stdout).expect("the output is UTF-8"),
        String::from_utf8(output.stderr).expect("the message is UTF-8"),
    )
}

/// Command lines that do not fit, and what is told of them.
const WRONG: &[(&str, &str)] = &[
    ("", "a command is missing"),
    ("jugde f", "there is no command `jugde`: is `judge` meant?"),
    ("frobnicate f", "only judge, template, run, trace, compare"),
    ("judge", "judge takes one file"),
    ("judge f g", "judge takes one file"),
    ("judge f --budget 3", "judge takes no --budget"),
    ("run", "run takes one or two files"),
    ("run f m --from 3", "run takes no --from"),
    ("run f m --budget", "--budget takes a number"),
    ("run f m --budget -1", "--budget takes a number"),
    ("run f m --budget=", "--budget takes a number"),
    ("run f m --budget 4294967296", "--budget takes a number"),
    ("run f m --out", "--out takes a file"),
    ("run f m --json=1", "--json takes no value"),
    (
        "run - -",
        "`-` is standard input, which can be read only once",
    ),
    ("run - --csv -", "`-` is standard input"),
    ("compare f - -", "`-` is standard input"),
    ("run f --out -", "--out takes a file, and not `-`"),
    ("trace f --json --lane 1", "belong to the table"),
    ("trace f --html o --watch s", "belong to the table"),
    ("run f m --blocks b", "--blocks brings the memories"),
    ("run f --block 3", "--block chooses one of --blocks"),
    (
        "run f --blocks b --stride 0",
        "--stride takes a number above 0",
    ),
    ("trace", "trace takes one or two files"),
    ("trace f m --out o", "trace takes no --out"),
    (
        "trace f m --jsn",
        "there is no option --jsn: is --json meant?",
    ),
    ("trace f --blocks b", "choose it with --block N"),
    ("trace f --from 5 --to 4", "--to is before --from"),
    ("compare f b", "compare takes three files"),
];

#[test]
fn usage_is_told() {
    for (arguments, why) in WRONG {
        let words: Vec<&str> = arguments.split_whitespace().collect();
        let (message, status) = told(&words);
        assert!(message.contains(why), "{arguments}: {message}");
        assert!(message.contains("lanes --help"), "{message}");
        assert_eq!(status, 64);
    }
}

#[test]
fn files_that_cannot_be_read_are_told() {
    let text = file("read.txt", b"int x;");
    for arguments in [
        &["judge", "no such file"][..],
        &["run", "no such file"],
        &["run", &text, "no such file"],
        &["run", &text, "--csv", "no such file"],
        &["run", &text, "--blocks", "no such file"],
        &["trace", &text, "no such file"],
        &["compare", &text, "no such file", &text],
        &["compare", &text, &text, "no such file"],
    ] {
        let (message, status) = told(arguments);
        assert!(
            message.starts_with("lanes: cannot read no such file: "),
            "{message}"
        );
        assert_eq!(status, 66);
    }
    assert_eq!(told(&["judge", "/"]).1, 66);
}

#[test]
fn samples_that_do_not_fit_are_told() {
    let text = file("fit.txt", b"int block[2] s; bool ok; int x;");
    for (set, why) in [
        ("s", "it has the form NAME=VALUE,VALUE"),
        ("sx=1", "there is no variable `sx`: is `s` meant?"),
        ("y=1", "there is no variable `y`"),
        (
            "s=1,2,3",
            "`s` is an int of 2 lanes, and 3 values are given",
        ),
        ("s=1,", "`s`: `` is no int"),
        ("s=1.5", "`s`: `1.5` is no int"),
        ("s=2147483648", "is no int: a number from -2147483648"),
        ("ok=2", "`ok`: `2` is no bool: 0, 1, false or true"),
    ] {
        let (message, status) = told(&["run", &text, "--set", set]);
        assert!(message.contains(why), "{message}");
        assert_eq!(status, 65);
    }
    assert_eq!(told(&["trace", &text, "--watch", "t"]).1, 65);
    assert_eq!(told(&["trace", &text, "--lane", "2"]).1, 65);
}

#[test]
fn damaged_files_of_samples_are_told() {
    let text = file("damaged.txt", b"int block[2] s; bool ok; int x;");
    for (csv, why) in [
        (&b""[..], "line 1: there is no head"),
        (b"\xff\xfe", "line 1: the line is no UTF-8"),
        (b"t\n1\n", "line 1: there is no variable `t`"),
        (b"s,s\n", "line 1: the column `s` is there twice"),
        (
            b"s[2]\n1\n",
            "`s` is an int of 2 lanes, and has no lane `2`",
        ),
        (b"s[\n", "has no lane ``"),
        (b"s,x\n1\n", "line 2: 1 cells stand under 2 columns"),
        (
            b"s\n1\n2\n3\n",
            "line 4: `s` is an int of 2 lanes, and this is row 2",
        ),
        (b"s[0]\n1\n2\n", "line 3: a second row is a second block"),
        (b"ok\n\"1\n", "line 2: a quoted cell does not end"),
        (b"ok\n\n7\n", "line 3: `ok`: `7` is no bool"),
        (b"a\x1bb\n", "there is no variable `a\\x1bb`"),
    ] {
        let path = file("damaged.csv", csv);
        let (message, status) = told(&["run", &text, "--csv", &path]);
        assert!(message.contains(why), "{message}");
        assert_eq!(status, 65);
        assert_eq!(message.lines().count(), 1, "{message}");
    }
}

#[test]
fn damaged_files_of_blocks_are_told() {
    let text = file("parts.txt", b"int block[2] s;");
    let none = file("none.txt", b";");
    let part = file("parts.bin", &[0; 12]);
    let shown = lanes(&["run", &text, "--blocks", &part]);
    assert_eq!(shown.status.code(), Some(65));
    let message = String::from_utf8_lossy(&shown.stderr).into_owned();
    assert!(
        message.contains("ends inside block 1: 4 of 8 bytes"),
        "{message}"
    );
    for (arguments, why) in [
        (&["run", &none, "--blocks", &part][..], "needs no memory"),
        (
            &["run", &text, "--blocks", &part, "--stride", "7"],
            "--stride 7 is less",
        ),
        (
            &["run", &text, "--blocks", &part, "--block", "3"],
            "ends inside block 1",
        ),
        (
            &["trace", &text, "--blocks", &part, "--block", "3"],
            "ends inside block 1",
        ),
    ] {
        let (message, status) = told(arguments);
        assert!(message.contains(why), "{message}");
        assert_eq!(status, 65);
    }
    let whole = file("whole.bin", &[0; 8]);
    let (message, _) = told(&["run", &text, "--blocks", &whole, "--block", "3"]);
    assert!(
        message.contains("has 1 block, so there is no block 3"),
        "{message}"
    );
}

#[test]
fn a_stride_passes_over_what_lies_between() {
    let text = file("stride.txt", b"int x; x = x + 1;");
    let blocks = [[1, 0, 0, 0, 9, 9, 9], [2, 0, 0, 0, 9, 9, 9]].concat();
    let blocks = file("stride.bin", &blocks[..11]);
    let (status, shown, _) = all(lanes(&["run", &text, "--blocks", &blocks, "--stride=7"]));
    assert_eq!(status, Some(0));
    assert!(
        shown.contains("x=2\n") && shown.contains("x=3\n"),
        "{shown}"
    );
}

#[test]
fn results_can_be_given_again_as_samples() {
    let text = file(
        "again.txt",
        b"int block[2] s; bool up; if (up) s = s + 1; else ;",
    );
    let out = file("again.csv", b"");
    let first = [
        "run",
        &text,
        "--set",
        "s=1,-2",
        "--set",
        "up=1",
        "--csv-out",
        &out,
    ];
    assert_eq!(lanes(&first).status.code(), Some(0));
    assert_eq!(
        std::fs::read_to_string(&out).unwrap(),
        "s[0],s[1],up\n2,-1,1\n"
    );
    let (_, shown, _) = all(lanes(&["run", &text, "--csv", &out, "--csv-out=-"]));
    assert!(shown.ends_with("s[0],s[1],up\n3,0,1\n"), "{shown}");
    let many = ["run", &text, "--blocks", &out, "--csv-out", "-"];
    let (_, shown, _) = all(lanes(&many));
    assert_eq!(shown, "#block,#code,#steps,s[0],s[1],up\n0,0,4,3,0,1\n");
}

#[test]
fn floats_can_be_given_again_as_samples() {
    let text = file(
        "floats.txt",
        b"float block[4] v; bool up; if (up) v = v * v; else ;",
    );
    let out = file("floats.csv", b"");
    let first = [
        "run",
        &text,
        "--set",
        "v=0.1,-inf,nan,-0",
        "--csv-out",
        &out,
    ];
    assert_eq!(lanes(&first).status.code(), Some(0));
    let head = "v[0],v[1],v[2],v[3],up";
    let kept = format!("{head}\n0.1,-inf,NaN,-0.0,0\n");
    assert_eq!(std::fs::read_to_string(&out).unwrap(), kept);
    let again = ["run", &text, "--csv", &out, "--set", "up=1", "--csv-out=-"];
    let (_, shown, _) = all(lanes(&again));
    let squares = format!("{head}\n0.010000001,inf,NaN,0.0,1\n");
    assert!(shown.ends_with(&squares), "{shown}");
}

#[test]
fn help_names_every_command_option_and_status() {
    let help = lanes(&["--help"]);
    assert_eq!(help.status.code(), Some(0));
    assert_eq!(lanes(&["judge", "-h"]).stdout, help.stdout);
    assert_eq!(lanes(&["help"]).stdout, help.stdout);
    let help = String::from_utf8(help.stdout).expect("the help is UTF-8");
    let words = "judge template run trace compare FILE MEMORY BEFORE AFTER --set --csv --blocks \
        --block --stride --budget --out --csv-out --from --to --watch --lane --html --width \
        --show --all --rows --json -- --help --version 0 1 2 3 64 65 66 70 73 74";
    for word in words.split_whitespace() {
        let found = |found: &str| found.trim_matches(&['[', ']', ','][..]) == word;
        assert!(help.split_whitespace().any(found), "{word}");
    }
    assert!(help.lines().all(|line| line.len() < 80));
    assert!(lanes(&["--version"]).stdout.starts_with(b"lanes "));
}

#[test]
fn out_takes_the_memory_after_a_run() {
    let text = file("out.txt", b"int block[2] v; v = v + 1;");
    let memory = file("out.bin", &[1, 0, 0, 0, 255, 255, 255, 255, 9]);
    let out = file("out.after", b"");
    let run = |more: &[&str]| {
        let arguments = [&["run", &text, &memory, "--out", &out], more].concat();
        lanes(&arguments).status.code()
    };
    assert_eq!(run(&[]), Some(0));
    assert_eq!(std::fs::read(&out).unwrap(), [2, 0, 0, 0, 0, 0, 0, 0]);
    assert_eq!(run(&["--budget", "1"]), Some(3));
    assert_eq!(
        std::fs::read(&out).unwrap(),
        [1, 0, 0, 0, 255, 255, 255, 255]
    );
}

#[test]
fn no_more_is_read_than_is_needed() {
    let text = file("endless-memory.txt", b"int x; x = x + 1;");
    let (status, shown, _) = all(lanes(&["run", &text, "/dev/zero"]));
    assert_eq!(status, Some(0));
    assert!(shown.ends_with("     0  01000000\n"), "{shown}");
    let (status, _, told) = all(lanes(&["judge", "/dev/zero"]));
    assert_eq!(status, Some(1));
    assert!(told.contains("more than 4096 bytes"), "{told}");
}

#[test]
fn standard_input_is_read() {
    let (status, shown, _) = all(lanes_with(&["judge", "-"], b"int x;"));
    assert_eq!(status, Some(0));
    assert!(
        shown.starts_with("standard input: The text is accepted."),
        "{shown}"
    );
    let text = file("stdin.txt", b"int x; x = x + 1;");
    let (_, shown, _) = all(lanes_with(&["run", &text, "-"], &[7, 0, 0, 0, 1]));
    assert!(shown.contains("8\n"), "{shown}");
    let (_, shown, _) = all(lanes_with(&["run", &text, "--csv", "-"], b"x\n41\n"));
    assert!(shown.contains("42\n"), "{shown}");
}

#[test]
fn out_is_not_written_where_nothing_ran() {
    let short = file("short.bin", &[1, 2, 3]);
    let folder = Path::new(env!("CARGO_TARGET_TMPDIR"));
    let out = folder.join("never.after");
    let path = out.to_str().expect("the path is UTF-8");
    let _ = std::fs::remove_file(&out);
    let accepted = file("accepted.txt", b"int x;");
    let refused = file("refused.txt", b"int x");
    let status = |text: &str| lanes(&["run", text, &short, "--out", path]).status.code();
    assert_eq!((status(&accepted), status(&refused)), (Some(2), Some(1)));
    assert!(!out.exists());
}

#[test]
fn files_that_cannot_be_written_are_told() {
    let text = file("unwritable.txt", b"int x;");
    let path = "no such folder/out";
    for arguments in [
        &["run", &text, "--out", path][..],
        &["run", &text, "--csv-out", path],
        &["trace", &text, "--html", path],
    ] {
        let output = lanes(arguments);
        let message = String::from_utf8_lossy(&output.stderr);
        assert!(
            message.starts_with("lanes: cannot write no such folder/out: "),
            "{message}"
        );
        assert_eq!(output.status.code(), Some(73));
    }
}

#[test]
fn long_text_is_refused_without_a_caret() {
    let text = file("long.txt", &[b';'; 4097]);
    let (message, status) = told(&["judge", &text]);
    let expected = format!(
        "{text}: The text has more than 4096 bytes, which is the limit.\n\
         code 1, place 0, need 0, steps 0\n"
    );
    assert_eq!((message, status), (expected, 1));
}

#[test]
fn words_behind_two_dashes_are_files() {
    let (message, status) = told(&["judge", "--", "--json"]);
    assert!(
        message.starts_with("lanes: cannot read --json: "),
        "{message}"
    );
    assert_eq!(status, 66);
}

#[test]
fn a_reader_that_goes_away_is_no_failure() {
    let text = file("endless.txt", b"int x; while (true) x = x + 1;");
    let mut command = command(&["trace", &text, "--budget", "2000"]);
    command.stdout(Stdio::piped()).stderr(Stdio::piped());
    let mut program = command.spawn().expect("lanes starts");
    drop(program.stdout.take());
    let output = program.wait_with_output().expect("lanes ends");
    assert_eq!(String::from_utf8_lossy(&output.stderr), "");
    assert_eq!(output.status.code(), Some(0));
}
