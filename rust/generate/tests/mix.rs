//! The generators give a healthy mix: every code occurs, and each sort meets its limit.

use generate::{case, lane_bytes, mixed, pieces, Case, Piece, Random, Sort, BLOCK_LENGTHS};
use oracle::{judge, run, variables, Program, Row, Watched};

/// The number of the kind of floats.
const FLOAT: u32 = 2;

/// What is refused as a constant that is malformed or larger.
const NEAR: [&str; 10] = [
    "1.",
    "1.00",
    "1.5",
    "0.5",
    "01.0",
    "00.0",
    "16777217.0",
    "2147483648.0",
    "4294967297.0",
    "99999999999.0",
];

/// How often each code occurs over these cases of one sort.
fn codes(sort: Sort, cases: u64) -> [usize; 14] {
    let mut counts = [0; 14];
    for index in 0..cases {
        let mut case = case(sort, &mut Random::new(11, index));
        let answer = run(&case.text, &mut case.memory, case.budget);
        counts[answer.code as usize] += 1;
    }
    counts
}

#[test]
fn every_code_occurs() {
    let mut counts = [[0; 14]; Sort::ALL.len()];
    for index in 0..6000 {
        let (sort, mut case) = mixed(7, index);
        let answer = run(&case.text, &mut case.memory, case.budget);
        let row = Sort::ALL.iter().position(|(known, _)| *known == sort);
        counts[row.unwrap()][answer.code as usize] += 1;
    }
    print!("{:>14}", "code");
    (0..14).for_each(|code| print!("{code:>6}"));
    println!();
    for ((_, name), row) in Sort::ALL.iter().zip(&counts) {
        print!("{name:>14}");
        row.iter().for_each(|count| print!("{count:>6}"));
        println!();
    }
    for code in 0..14 {
        let sum: usize = counts.iter().map(|row| row[code]).sum();
        assert!(sum >= 20, "code {code} occurs {sum} times");
    }
}

#[test]
fn well_typed_texts_are_accepted() {
    let counts = codes(Sort::WellTyped, 2000);
    assert_eq!(counts[2..12], [0; 10], "{counts:?}");
    assert!(counts[1] < 20 && counts[0] > 1000 && counts[12] > 50 && counts[13] > 100);
}

#[test]
fn each_sort_meets_its_limit() {
    let nesting = codes(Sort::Nesting, 400);
    assert!(
        nesting[0] > 40 && nesting[3] > 20 && nesting[4] > 40,
        "{nesting:?}"
    );
    let declarations = codes(Sort::Declarations, 200);
    assert!(declarations[0] > 20 && declarations[6] > 5 && declarations[11] > 40);
    let long = codes(Sort::LongText, 200);
    assert!(long[0] > 20 && long[1] > 40, "{long:?}");
    let names = codes(Sort::Names, 200);
    assert!(names[0] > 20 && names[2] > 40 && names[5] > 5 && names[6] > 5);
    let numbers = codes(Sort::Numbers, 300);
    assert!(
        numbers[0] > 20 && numbers[2] > 80 && numbers[7] > 10,
        "{numbers:?}"
    );
    let comments = codes(Sort::Comments, 200);
    assert!(comments[0] > 80 && comments[2] > 20, "{comments:?}");
    let nearly = codes(Sort::NearlyTyped, 2000);
    assert!((5..11).all(|code| nearly[code] > 10), "{nearly:?}");
    let any = codes(Sort::AnyTyped, 2000);
    assert!((5..11).all(|code| any[code] > 10) && any[0] > 50, "{any:?}");
}

#[test]
fn every_way_and_every_token_occurs() {
    let mut text = Vec::new();
    for index in 0..400 {
        text.extend(generate::text(Sort::WellTyped, &mut Random::new(3, index)));
    }
    for token in
        "int bool float block if else while scalar current_mask true false ; { } ( ) [ ] = == != \
        < > <= >= + - * & | ^ ~ ! 1 2 4 8 16 32 64 0.0 1.0 2.0 3.0 16777216.0"
            .split_whitespace()
    {
        let found = text
            .windows(token.len())
            .filter(|at| *at == token.as_bytes());
        assert!(found.count() >= 20, "{token}");
    }
}

/// Whether an accepted text has a block of more than 16 lanes.
fn is_long(text: &[u8]) -> bool {
    variables(text).rows.iter().any(|row| row.length > 16)
}

#[test]
fn a_third_of_the_accepted_texts_has_long_blocks() {
    let mut counts = [[0; 2]; Sort::ALL.len()];
    for index in 0..6000 {
        let (sort, case) = mixed(7, index);
        if judge(&case.text).code == 0 {
            let row = Sort::ALL.iter().position(|(known, _)| *known == sort);
            counts[row.unwrap()][usize::from(is_long(&case.text))] += 1;
        }
    }
    println!("{:>14} accepted   long", "");
    for ((_, name), [short, long]) in Sort::ALL.iter().zip(&counts) {
        println!("{name:>14} {:>8} {long:>6}", short + long);
    }
    let sum = |which: usize| counts.iter().map(|row| row[which]).sum::<usize>();
    let percent = 100 * sum(1) / (sum(0) + sum(1));
    println!("{percent} %");
    assert!((30..=40).contains(&percent), "{percent} %");
}

/// Whether an accepted text declares a float.
fn has_floats(text: &[u8]) -> bool {
    variables(text).rows.iter().any(|row| row.kind == FLOAT)
}

#[test]
fn nearly_half_of_the_accepted_texts_has_floats() {
    let mut counts = [[0; 2]; Sort::ALL.len()];
    for index in 0..6000 {
        let (sort, case) = mixed(7, index);
        if judge(&case.text).code == 0 {
            let row = Sort::ALL.iter().position(|(known, _)| *known == sort);
            counts[row.unwrap()][usize::from(has_floats(&case.text))] += 1;
        }
    }
    println!("{:>14} accepted floats", "");
    for ((_, name), [without, with]) in Sort::ALL.iter().zip(&counts) {
        println!("{name:>14} {:>8} {with:>6}", without + with);
    }
    let sum = |which: usize| counts.iter().map(|row| row[which]).sum::<usize>();
    let percent = 100 * sum(1) / (sum(0) + sum(1));
    println!("{percent} %");
    assert!((40..=55).contains(&percent), "{percent} %");
}

/// The text with every float as another kind, and every constant of one made by this.
fn without_floats(text: &[u8], kind: &[u8], constant: impl Fn(&[u8]) -> Vec<u8>) -> Vec<u8> {
    let others = pieces(text).into_iter().map(|piece| match piece.bytes {
        b"float" => kind.to_vec(),
        word => word.strip_suffix(b".0").map_or(word.to_vec(), &constant),
    });
    others.collect::<Vec<_>>().concat()
}

/// Whether a text that is refused with 8 is so because of its floats: in ints or in bools it is not.
fn is_of_floats(text: &[u8]) -> bool {
    let ints = without_floats(text, b"int", |whole| whole.to_vec());
    let bools = without_floats(text, b"bool", |_| b"true".to_vec());
    judge(&ints).code != 8 || judge(&bools).code != 8
}

#[test]
fn floats_are_refused_in_every_way() {
    let mut constants = [0; NEAR.len()];
    let mut kinds = std::collections::BTreeMap::new();
    let sorts = [Sort::NearlyTyped, Sort::AnyTyped, Sort::Numbers];
    for index in 0..15_000 {
        let sort = sorts[index as usize % sorts.len()];
        let text = generate::text(sort, &mut Random::new(7, index));
        let answer = judge(&text);
        let from = &text[(answer.place as usize).min(text.len())..];
        match answer.code {
            2 => {
                let digits = pieces(from)[0].bytes;
                for (count, near) in constants.iter_mut().zip(NEAR) {
                    *count += usize::from(digits == near.as_bytes());
                }
            }
            8 if is_of_floats(&text) => {
                let sign: &[u8] = match pieces(from)[0].bytes {
                    b"=" | b"!" | b"<" | b">" if from.get(1) == Some(&b'=') => &from[..2],
                    one => one,
                };
                let sign = String::from_utf8_lossy(sign).into_owned();
                *kinds.entry(sign).or_insert(0) += 1;
            }
            _ => {}
        }
    }
    println!("{constants:?} {kinds:?}");
    assert!(constants.iter().all(|count| *count >= 3), "{constants:?}");
    for sign in "= == != < > <= >= + - * & | ^ ~ ! if while".split(' ') {
        let count = kinds.get(sign).copied().unwrap_or(0);
        assert!(count >= 3, "8 at {sign} occurs {count} times");
    }
}

/// What is said of a float's pattern, sign aside.
fn class(pattern: u32) -> usize {
    match pattern & 0x7fff_ffff {
        0 => 0,
        1..=0x7f_ffff => 1,
        0x7f80_0000 => 2,
        0x7fc0_0000 => 3,
        0x7f80_0001..=0x7fbf_ffff => 4,
        0x7fc0_0001.. => 5,
        _ => 6,
    }
}

/// The patterns in a float's lanes.
fn patterns<'m>(row: &'m Row, memory: &'m [u8]) -> impl Iterator<Item = u32> + 'm {
    let lanes = (0..row.length as usize).map(move |lane| lane_bytes(row, memory, lane));
    lanes.map(|bytes| u32::from_le_bytes(bytes.try_into().unwrap()))
}

/// Zeros, subnormals, infinities, the stored not-a-number, signalling and other quiet ones, and
/// other numbers, each with both signs: before a run, where it changed a lane, and where it left
/// one of a block in which it changed another.
#[test]
fn patterns_of_every_class_are_read_written_and_left() {
    let mut counts = [[[0; 7]; 2]; 3];
    for index in 0..4000 {
        let case = case(Sort::WellTyped, &mut Random::new(9, index));
        let mut after = case.memory.clone();
        if ![0, 13].contains(&run(&case.text, &mut after, case.budget).code) {
            continue;
        }
        let rows = variables(&case.text).rows;
        for row in rows.iter().filter(|row| row.kind == FLOAT) {
            let (one, other) = (patterns(row, &case.memory), patterns(row, &after));
            let lanes: Vec<_> = one.zip(other).collect();
            let written = lanes.iter().any(|(before, after)| before != after);
            for (before, after) in lanes {
                let sign = |pattern: u32| (pattern >> 31) as usize;
                counts[0][sign(before)][class(before)] += 1;
                if before != after {
                    counts[1][sign(after)][class(after)] += 1;
                } else if written {
                    counts[2][sign(after)][class(after)] += 1;
                }
            }
        }
    }
    println!("{counts:?}");
    let [read, changed, left] = counts;
    assert!(read.iter().flatten().all(|count| *count >= 100));
    assert!(left.iter().flatten().all(|count| *count >= 5));
    // A run stores one not-a-number, and no other.
    assert!(changed[0][..4].iter().all(|count| *count >= 20));
    assert!(changed[1][..3].iter().all(|count| *count >= 5));
    assert_eq!(
        (&changed[0][4..6], &changed[1][3..6]),
        (&[0; 2][..], &[0; 3][..])
    );
}

#[test]
fn every_sort_has_long_blocks() {
    for (sort, name) in Sort::ALL {
        let texts = (0..400).map(|index| generate::text(sort, &mut Random::new(14, index)));
        let long = texts.filter(|text| {
            let read = pieces(text);
            let read: Vec<_> = read.into_iter().filter(|piece| !piece.is_space()).collect();
            let mut numbers = read.windows(2).filter(|two| two[0].bytes == b"[");
            numbers.any(|two| two[1].bytes == b"32" || two[1].bytes == b"64")
        });
        let count = long.count();
        assert!(count >= 10, "{name}: {count} texts");
    }
}

#[test]
fn every_length_is_declared_and_refused_ones_stand_beside_it() {
    let mut lengths = std::collections::BTreeMap::new();
    for index in 0..6000 {
        let text = mixed(8, index).1.text;
        for row in variables(&text).rows {
            *lengths.entry(row.length as usize).or_insert(0) += 1;
        }
        let answer = judge(&text);
        if answer.code == 7 {
            let digits = text[answer.place as usize..].iter();
            let digits = digits.take_while(|byte| byte.is_ascii_digit());
            let number: String = digits.map(|byte| char::from(*byte)).collect();
            *lengths.entry(number.parse().unwrap()).or_insert(0) += 1;
        }
    }
    for length in [1, 31, 33, 63, 65, 128].iter().chain(&BLOCK_LENGTHS) {
        let count = lengths.get(length).copied().unwrap_or(0);
        assert!(count >= 5, "{length} occurs {count} times");
    }
}

#[test]
fn the_greatest_need_occurs() {
    let needs = (0..400).map(|index| {
        let text = generate::text(Sort::Declarations, &mut Random::new(12, index));
        judge(&text).need
    });
    let most = needs.filter(|need| *need == 16_384).count();
    assert!(most >= 5, "{most} texts");
}

/// The masks of the steps of a run, each with the place of its statement.
fn watched(case: &Case) -> Vec<(usize, Watched)> {
    let program = match Program::prepare(&case.text) {
        Ok(program) => program,
        Err(_) => return Vec::new(),
    };
    let steps = (0..case.budget.min(60)).map_while(|budget| {
        let (answer, due) = program.run_watched(&mut case.memory.clone(), budget);
        due.map(|mask| (answer.place as usize, mask))
    });
    steps.collect()
}

/// The pieces of a statement from this place to its `;`, or to the end of its condition.
fn statement<'p>(read: &'p [Piece<'p>], place: usize) -> Vec<&'p [u8]> {
    let from = read.iter().position(|piece| piece.start == place);
    let words = read[from.unwrap()..].iter().map(|piece| piece.bytes);
    let mut depth = 0;
    let mut statement = Vec::new();
    for word in words {
        depth += i32::from(word == b"(") - i32::from(word == b")");
        statement.push(word);
        if word == b";" || depth == 0 && word == b")" {
            break;
        }
    }
    statement
}

/// Whether no variable of several lanes and no mask stands among these words.
fn is_scalar(words: &[&[u8]], text: &[u8], rows: &[Row]) -> bool {
    let blocks = rows.iter().filter(|row| row.length > 1);
    let names: Vec<&[u8]> = blocks
        .map(|row| pieces(&text[row.place as usize..])[0].bytes)
        .collect();
    let of_lanes = |word: &&&[u8]| **word == b"current_mask" || names.contains(word);
    !words.iter().any(|word| of_lanes(&word))
}

#[test]
fn masks_of_32_and_64_lanes_occur_in_every_way() {
    let mut counts = [[0; 10]; 2];
    for index in 0..8000 {
        let case = mixed(13, index).1;
        let rows = variables(&case.text).rows;
        let read = pieces(&case.text);
        let read: Vec<_> = read.into_iter().filter(|piece| !piece.is_space()).collect();
        let steps = watched(&case);
        for (at, (place, Watched { length, mask })) in steps.iter().enumerate() {
            let row = match length {
                32 => 0,
                64 => 1,
                _ => continue,
            };
            let last = mask >> (length - 1) & 1 == 1;
            let words = statement(&read, *place);
            let tests = words[0] == b"if" || words[0] == b"while";
            let stores = !tests && words.contains(&&b"="[..]);
            let scalar = is_scalar(&words[1..], &case.text, &rows);
            let next = steps.get(at + 1);
            let met = [
                last,
                !last,
                mask.count_ones() == 1 && last,
                mask.count_ones() as usize == *length,
                tests && scalar,
                tests && !scalar,
                stores && words.contains(&&b"current_mask"[..]),
                tests && words.contains(&&b"current_mask"[..]),
                stores && is_scalar(&words[2..], &case.text, &rows),
                next.map_or(false, |(_, next)| next.length == 1),
            ];
            for (count, met) in counts[row].iter_mut().zip(met) {
                *count += usize::from(met);
            }
        }
    }
    println!("{counts:?}");
    assert!(
        counts.iter().flatten().all(|count| *count >= 10),
        "{counts:?}"
    );
}

#[test]
fn a_seed_and_index_always_give_the_same_case() {
    for index in 0..50 {
        assert_eq!(mixed(5, index), mixed(5, index));
    }
    assert_ne!(mixed(5, 0), mixed(6, 0));
}
