//! The text once and many images: how many are run, and what each leaves, by hand.

use oracle::run_each;

/// Counts down to nothing, 1 + 2·n + 1 steps.
const TEXT: &[u8] = b"int n; while (0 < n) n = n - 1;";

/// Three images of four bytes, and two bytes behind them.
const IMAGES: [u8; 14] = [1, 0, 0, 0, 200, 0, 0, 0, 0, 0, 0, 0, 9, 9];

/// These numbers as answers side by side.
fn answers(numbers: &[[u32; 4]]) -> Vec<u8> {
    let numbers = numbers.iter().flatten();
    numbers.flat_map(|number| number.to_le_bytes()).collect()
}

#[test]
fn each_image_has_a_budget_of_its_own() {
    let (mut images, mut left) = (IMAGES, [7; 50]);
    assert_eq!(run_each(TEXT, &mut images, 4, 100, &mut left), 3);
    assert_eq!(images, [0, 0, 0, 0, 151, 0, 0, 0, 0, 0, 0, 0, 9, 9]);
    let expected = answers(&[[0, 0, 4, 4], [13, 21, 4, 100], [0, 0, 4, 2]]);
    assert_eq!(left[..48], expected);
    assert_eq!(left[48..], [7, 7]);
}

#[test]
fn only_images_with_room_for_their_answer_are_run() {
    for (room, whole) in [(0, 0), (15, 0), (16, 1), (31, 1), (32, 2), (47, 2), (64, 3)] {
        let (mut images, mut left) = (IMAGES, vec![7; room]);
        assert_eq!(run_each(TEXT, &mut images, 4, 4, &mut left), whole);
        assert_eq!(images[4 * whole..], IMAGES[4 * whole..]);
        assert!(left[16 * whole..].iter().all(|byte| *byte == 7));
        assert_eq!(images[0], u8::from(whole == 0));
    }
}

#[test]
fn no_image_has_size_0_or_more_bytes_than_there_are() {
    for size in [0, 15, usize::MAX] {
        let (mut images, mut left) = (IMAGES, [7; 64]);
        assert_eq!(run_each(TEXT, &mut images, size, 9, &mut left), 0);
        assert_eq!((images, left), (IMAGES, [7; 64]));
    }
}

#[test]
fn an_image_shorter_than_need_is_12_and_a_refused_text_its_refusal() {
    let (mut images, mut left) = (IMAGES, [7; 64]);
    assert_eq!(run_each(TEXT, &mut images, 3, 9, &mut left), 4);
    assert_eq!(left.to_vec(), answers(&[[12, 0, 4, 0]; 4]));
    assert_eq!(run_each(b"int n", &mut images, 5, 9, &mut left), 2);
    assert_eq!(left[..32], answers(&[[3, 5, 0, 0]; 2]));
    assert_eq!(images, IMAGES);
}
