//! The examples of docs/LANGUAGE.md and README.md: each gives what the page says.
//!
//! A block of `lanes` is a routine, and its comments say what it starts from and what it gives. A
//! block of `console` holds commands of the program and the beginning of what they show.

mod common;

use common::{command, file, lanes};
use std::collections::BTreeSet;
use std::path::PathBuf;

/// The project's folder.
fn root() -> PathBuf {
    PathBuf::from(env!("CARGO_MANIFEST_DIR")).join("../..")
}

/// A page of the project.
fn page(name: &str) -> String {
    std::fs::read_to_string(root().join(name)).expect("the page can be read")
}

/// The blocks of a page that are marked so, each without its fences.
fn blocks(page: &str, mark: &str) -> Vec<String> {
    let fence = format!("```{mark}");
    let mut blocks: Vec<String> = Vec::new();
    let mut inside = false;
    for line in page.lines() {
        if line == fence {
            inside = true;
            blocks.push(String::new());
        } else if line == "```" {
            inside = false;
        } else if inside {
            let block = blocks.last_mut().expect("a block has begun");
            block.push_str(line);
            block.push('\n');
        }
    }
    blocks
}

/// A routine of the page, and what its comments ask for.
#[derive(Debug, Default)]
struct Example {
    text: String,
    sets: Vec<String>,
    budget: u32,
    memory: Option<usize>,
    lines_before: usize,
}

/// What the comments of a block say, each line without its slashes.
fn said(block: &str) -> Vec<&str> {
    let lines = block.lines();
    lines.filter_map(|line| line.strip_prefix("// ")).collect()
}

/// The number in this word.
fn number<T: std::str::FromStr>(word: &str) -> T {
    let number = word.parse().ok();
    number.expect("the comment has a number here")
}

/// The example of a block.
fn example(block: &str) -> Example {
    let mut example = Example {
        text: block.into(),
        budget: 1000,
        ..Example::default()
    };
    for line in said(block) {
        let words: Vec<&str> = line.split_whitespace().collect();
        match words[..] {
            ["from", ..] => example.sets = words[1..].iter().map(|set| set.to_string()).collect(),
            ["budget", budget] => example.budget = number(budget),
            ["memory", "of", bytes, "bytes"] => example.memory = Some(number(bytes)),
            ["with", spaces, "spaces", "behind", "it"] => {
                example.text.push_str(&" ".repeat(number(spaces)));
            }
            ["behind", count, "declarations"] => {
                let declared = (0..number::<u32>(count)).map(|n| format!("int d{n}; "));
                let declared: String = declared.collect();
                example.text = format!("{declared}\n{}", example.text);
                example.lines_before = 1;
            }
            _ => {}
        }
    }
    example
}

impl Example {
    /// The place of a line and column, or of the text's end.
    fn place(&self, words: &[&str]) -> usize {
        if words == ["the", "end"] {
            return self.text.len();
        }
        let (line, column) = words[0].split_once(':').expect("a place has a colon");
        let line = number::<usize>(line) - 1 + self.lines_before;
        let before = self.text.split_inclusive('\n').take(line);
        let start: usize = before.map(str::len).sum();
        start + number::<usize>(column) - 1
    }

    /// What is left of the values that a comment names, and the answer.
    fn run(&self, sets: &[&str]) -> (Vec<String>, ruihmento::Answer) {
        let text = self.text.as_bytes();
        let need = ruihmento::judge(text).need;
        let mut memory = vec![0; self.memory.unwrap_or(need)];
        if self.memory.is_none() {
            memory = self.started(need);
        }
        let answer = ruihmento::run(text, &mut memory, self.budget);
        let names = sets
            .iter()
            .map(|set| set.split('=').next().unwrap_or_default());
        let shown = names.map(|name| format!("{name}={}", self.values(name, &memory)));
        (shown.collect(), answer)
    }

    /// The memory with the samples that the comments give, put there by the program.
    fn started(&self, need: usize) -> Vec<u8> {
        let path = file("language.txt", self.text.as_bytes());
        let out = file("language.bin", b"");
        let mut words = vec!["run", &path[..], "--budget", "0", "--out", &out];
        for set in &self.sets {
            words.extend(["--set", set]);
        }
        let output = lanes(&words);
        let told = String::from_utf8_lossy(&output.stderr);
        assert_ne!(output.status.code(), Some(65), "{told}");
        let mut memory = std::fs::read(&out).expect("the memory can be read");
        memory.resize(need, 0);
        memory
    }

    /// The values of a variable.
    fn values(&self, name: &str, memory: &[u8]) -> String {
        let path = file("language.txt", self.text.as_bytes());
        let bytes = file("language.bin", memory);
        let shown = lanes(&["run", &path, &bytes, "--budget", "0", "--json"]);
        let shown = String::from_utf8(shown.stdout).expect("JSON is UTF-8");
        let from = format!("{{\"name\":\"{name}\"");
        let (_, rest) = shown.split_once(&from).expect("the variable is listed");
        let (_, rest) = rest.split_once("\"values\":[").expect("it has values");
        let (values, _) = rest.split_once(']').expect("the values end");
        let values = values.replace("true", "1").replace("false", "0");
        // What is no number in JSON is a text.
        values.replace('"', "")
    }

    /// Checks what one comment says; gives the code that it names.
    fn check(&self, line: &str) -> Option<u32> {
        let words: Vec<&str> = line.split_whitespace().collect();
        let words: Vec<&str> = words
            .iter()
            .map(|word| word.trim_end_matches(','))
            .collect();
        match words[..] {
            ["accepted", "needs", need, "bytes"] => {
                let answer = ruihmento::judge(self.text.as_bytes());
                assert_eq!((answer.code, answer.need), (0, number(need)), "{self:?}");
                Some(0)
            }
            ["leaves", ..] => {
                let values: Vec<&str> = words[1..].to_vec();
                let after = values.iter().position(|word| *word == "after");
                let sets = &values[..after.unwrap_or(values.len())];
                let (left, answer) = self.run(sets);
                assert_eq!(left, sets, "{self:?}");
                if let Some(after) = after {
                    assert_eq!((answer.code, answer.steps), (0, number(values[after + 1])));
                }
                Some(answer.code)
            }
            ["code", code, ..] => {
                let code = number(code);
                self.check_code(code, &words[2..]);
                Some(code)
            }
            _ => None,
        }
    }

    /// Checks a code with the place, need or steps that are named beside it.
    fn check_code(&self, code: u32, rest: &[&str]) {
        let (_, answer) = self.run(&[]);
        assert_eq!(answer.code, code, "{self:?}");
        match rest {
            [] => assert_eq!(answer.place, 0),
            ["needs", need, "bytes"] => assert_eq!(answer.need, number(need)),
            ["at", place @ .., "after", steps, "steps"] => {
                let expected = (self.place(place), number(steps));
                assert_eq!((answer.place, answer.steps), expected, "{self:?}");
            }
            ["at", place @ ..] => assert_eq!(answer.place, self.place(place), "{self:?}"),
            other => panic!("{other:?} says nothing that can be checked"),
        }
    }
}

#[test]
fn the_examples_of_the_language_give_what_the_page_says() {
    let page = page("docs/LANGUAGE.md");
    let mut codes = BTreeSet::new();
    for block in blocks(&page, "lanes") {
        let example = example(&block);
        let checked = said(&block)
            .into_iter()
            .filter_map(|line| example.check(line));
        let checked: Vec<u32> = checked.collect();
        assert!(!checked.is_empty(), "nothing is said of {block}");
        codes.extend(checked);
    }
    assert_eq!(codes, (0..=13).collect());
    for code in 0..=13 {
        assert!(
            page.contains(&format!("\n**{code}: ")),
            "code {code} has a paragraph"
        );
    }
}

/// The pages with commands, how the program is called in each, and where it runs.
const PAGES: [(&str, &str, &str); 3] = [
    ("docs/LANGUAGE.md", "$ lanes ", "rust/lanes/tests/golden"),
    ("README.md", "$ rust/target/release/lanes ", ""),
    ("rust/README.md", "$ lanes ", "rust/lanes/tests/golden"),
];

#[test]
fn the_commands_of_the_pages_show_what_the_pages_say() {
    for (name, called, folder) in PAGES {
        let blocks = blocks(&page(name), "console");
        assert!(!blocks.is_empty(), "{name} has commands");
        for block in blocks {
            let (line, shown) = block.split_once('\n').expect("a command has a line");
            let words = line.strip_prefix(called).expect("a command of lanes");
            let words: Vec<&str> = words.split_whitespace().collect();
            let mut command = command(&words);
            let output = command.current_dir(root().join(folder)).output();
            let output = output.expect("lanes starts");
            let mut found = String::from_utf8_lossy(&output.stdout).into_owned();
            found.push_str(&String::from_utf8_lossy(&output.stderr));
            match shown.strip_suffix("...\n") {
                Some(beginning) => assert!(found.starts_with(beginning), "{name}: {found}"),
                None => assert_eq!(found, shown, "{name}: {line}"),
            }
        }
    }
}
