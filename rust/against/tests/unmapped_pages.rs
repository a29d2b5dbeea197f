//! Text, memory, images, table and answer flush against pages that may not be touched: a byte read
//! or written outside them ends the program. The text's own pages may only be read.

mod pages;

use against::{Archive, Call, Left, Oracle, Plan, Service};
use generate::{mixed, Random, Shape, BLOCK_LENGTHS};
use pages::{Flush, Room, Watch, PAGE};

/// The seed of the generated cases.
const SEED: u64 = 3;

/// How many of them are tried.
const CASES: usize = 2_000;

/// A text with every sign, comments, and names and numbers of every length that matters.
const EVERY_TOKEN: &str = "bool block[64] ok; int block[16] s = 2147483647; // a comment\n\
    { int a_name_of_exactly_31_bytes_here = 0; bool b = !(true & false) | false ^ true; }\r\n\
    \tif (s <= 10 == (s >= ~7)) { s = -s * 3 + 2 - s; } else while (s < 9 != current_mask) ;\n\
    scalar { bool c = 1 > 2; } if (ok) ; else ; float f = -16777216.0*3.0; f=0.0; //";

/// One room for each slice of a call.
struct Rooms {
    text: Room,
    bytes: Room,
    answer: Room,
}

impl Rooms {
    /// Rooms of so many pages.
    fn new(pages: usize) -> Self {
        Rooms {
            text: Room::new(pages),
            bytes: Room::new(pages),
            answer: Room::new(pages),
        }
    }

    /// Makes the call on the archive, each slice flush in this way, and compares all that it
    /// returns and leaves with what the independent implementation does.
    fn check(&mut self, text: &[u8], call: &Call, expected: &Left, flush: Flush) {
        let lent = self.text.lend_to_read(text, flush);
        let bytes = self.bytes.lend(&call.bytes_before(), flush);
        let answer = self.answer.lend(&call.answer_before(), flush);
        let returned = call.make(&Archive, lent, bytes, answer);
        let shown = String::from_utf8_lossy(text);
        assert_eq!(returned, expected.returned, "{flush:?} {call} of {shown}");
        assert_eq!(answer, expected.answer, "{flush:?} {call} of {shown}");
        assert_eq!(bytes, expected.bytes, "{flush:?} {call} of {shown}");
    }

    /// Both ways.
    fn check_both(&mut self, text: &[u8], call: &Call) {
        let expected = call.perform(&Oracle, text);
        self.check(text, call, &expected, Flush::Front);
        self.check(text, call, &expected, Flush::Back);
    }
}

#[test]
fn generated_cases_touch_nothing_else() {
    let mut watch = Watch::new();
    let mut rooms = Rooms::new(4);
    for index in 0..CASES {
        watch.tries(format!("case {index} of seed {SEED}"));
        let (_, case) = mixed(SEED, index as u64);
        for call in Plan::new(SEED, index as u64).calls(&case) {
            rooms.check_both(&case.text, &call);
        }
    }
}

#[test]
fn a_text_that_ends_anywhere_is_not_read_further() {
    let mut watch = Watch::new();
    let mut rooms = Rooms::new(4);
    let text = EVERY_TOKEN.as_bytes();
    assert!(ruihmento::judge(text).is_accepted());
    for length in 0..=text.len() {
        watch.tries(format!("the first {length} bytes of every token"));
        let shape = Shape::few(&mut Random::new(SEED, length as u64));
        rooms.check_both(&text[..length], &Call::run_each(shape, &text[..length], 50));
        for service in [
            Service::Judge,
            Service::Run(vec![7; 300], 50),
            Service::Variables(80),
        ] {
            for answer in [0, 15, 16, 17] {
                let service = service.clone();
                rooms.check_both(&text[..length], &Call { service, answer });
            }
        }
    }
}

/// A text of a whole page and a memory of whole pages touch such pages on both sides at once.
#[test]
fn whole_pages_are_flush_on_both_sides() {
    let mut watch = Watch::new();
    for (lanes, pages) in [(16, 1), (32, 2), (64, 4)] {
        let declared = (0..64).map(|n| format!("int block[{lanes}] v{n};"));
        let mut text: String = declared.collect();
        text += "v0 = v63 + 1; if (v0 < v1) v63 = v0; else v62 = v63;";
        text += &" ".repeat(PAGE - text.len());
        let memory: Vec<u8> = (0..pages * PAGE).map(|at| (at / 97) as u8).collect();
        assert_eq!(ruihmento::judge(text.as_bytes()).need, memory.len());
        let service = Service::Run(memory, 1_000);
        watch.tries(format!("a text of one page and a memory of {pages}"));
        let mut rooms = Rooms::new(1);
        rooms.bytes = Room::new(pages);
        rooms.check_both(
            text.as_bytes(),
            &Call {
                service,
                answer: 16,
            },
        );
    }
}

/// Each length by itself, in every kind, with every lane loaded, tested and stored: a memory of
/// just so many bytes, flush on either side.
#[test]
fn blocks_of_every_length_are_flush_on_either_side() {
    let mut watch = Watch::new();
    for lanes in BLOCK_LENGTHS {
        let ints = format!("int block[{lanes}] a; if (a < 3) a = a + 1; else a = 0 - a;");
        let bools = format!("bool block[{lanes}] b; if (b) b = !b; else b = current_mask;");
        let floats = format!("float block[{lanes}] a; if (a < 3.0) a = a * 2.0; else a = -a;");
        for (text, need) in [(ints, 4 * lanes), (bools, lanes), (floats, 4 * lanes)] {
            watch.tries(format!("a memory of {need} bytes for {lanes} lanes"));
            for seed in 0..20 {
                let memory = generate::memory_for(text.as_bytes(), &mut Random::new(SEED, seed));
                let memory = memory.into_iter().chain([0; 300]).take(need).collect();
                let call = Call {
                    service: Service::Run(memory, 100),
                    answer: 16,
                };
                Rooms::new(1).check_both(text.as_bytes(), &call);
            }
        }
    }
}

/// Images that fill their pages touch such pages on both sides at once, and so do the answers.
#[test]
fn images_and_answers_may_fill_their_pages() {
    let mut watch = Watch::new();
    for (lanes, pages) in [(16, 8), (64, 32)] {
        let text = format!(
            "int block[{lanes}] a; int block[{lanes}] b = 3; if (a < b) a = a + b; else b = a;"
        );
        let size = ruihmento::judge(text.as_bytes()).need;
        assert_eq!(PAGE % size, 0);
        watch.tries(format!("images of {lanes} lanes that fill whole pages"));
        let shape = Shape::whole(PAGE / size * pages, SEED);
        let call = Call::run_each(shape, text.as_bytes(), 1_000);
        let whole = (pages * PAGE, PAGE);
        assert_eq!((call.bytes_before().len(), call.answer), whole);
        Rooms::new(1).check_both(text.as_bytes(), &call);
    }
}

#[test]
fn the_pages_round_a_room_may_not_be_touched() {
    let mut room = Room::new(2);
    room.lend(b"some bytes", Flush::Front);
    let maps = std::fs::read_to_string("/proc/self/maps").expect("the list of mappings is there");
    let [before, start, end, after] = room.bounds();
    for (from, to, expected) in [
        (before, start, "---p"),
        (start, end, "rw-p"),
        (end, after, "---p"),
    ] {
        let mapping = maps.lines().filter_map(mapping);
        let mut found = mapping.filter(|(first, last, _)| *first <= from && to <= *last);
        assert_eq!(found.next().map(|(_, _, may)| may), Some(expected));
    }
}

/// Begin, end and rights of one line of the list of mappings.
fn mapping(line: &str) -> Option<(usize, usize, &str)> {
    let (bounds, rest) = line.split_once(' ')?;
    let (first, last) = bounds.split_once('-')?;
    let number = |digits| usize::from_str_radix(digits, 16).ok();
    Some((number(first)?, number(last)?, rest.get(..4)?))
}
