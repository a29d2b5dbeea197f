//! Batches of images: what occurs, and that a shape gives the same batch again.

use generate::{mixed, Batch, Case, Random, Shape};
use oracle::judge;

/// The bytes of one answer.
const ANSWER: usize = 16;

/// The cases, each with a batch of every shape.
fn batches(cases: u64) -> impl Iterator<Item = (Case, Batch)> {
    (0..cases).flat_map(|index| {
        let case = mixed(9, index).1;
        let mut random = Random::new(10, index);
        let shapes = [Shape::few(&mut random), Shape::odd(&mut random)];
        shapes.map(|shape| (case.clone(), shape.batch(&case.text)))
    })
}

/// How many images of a batch are run.
fn whole(batch: &Batch) -> usize {
    let images = batch.images.len().checked_div(batch.size).unwrap_or(0);
    images.min(batch.answers / ANSWER)
}

#[test]
fn everything_that_matters_occurs() {
    let mut counts = [0; 9];
    for (case, batch) in batches(2_000) {
        let need = judge(&case.text).need as usize;
        let images = batch.images.len().checked_div(batch.size).unwrap_or(0);
        let met = [
            batch.size == 0,
            batch.size < need,
            batch.size == need && need > 0,
            batch.size > need,
            batch.answers / ANSWER < images,
            batch.answers / ANSWER > images,
            batch.answers % ANSWER > 0,
            batch.size > 0 && batch.images.len() % batch.size > 0,
            whole(&batch) > 1,
        ];
        for (count, met) in counts.iter_mut().zip(met) {
            *count += usize::from(met);
        }
    }
    assert!(counts.iter().all(|count| *count > 200), "{counts:?}");
}

#[test]
fn the_images_of_a_batch_end_in_more_ways_than_one() {
    let mixed = batches(2_000).filter(|(case, batch)| {
        let (mut images, mut answers) = (batch.images.clone(), vec![0; batch.answers]);
        let budget = case.budget.min(1_000);
        oracle::run_each(&case.text, &mut images, batch.size, budget, &mut answers);
        let answers = answers.chunks_exact(ANSWER).take(whole(batch));
        let distinct: std::collections::BTreeSet<_> = answers.collect();
        distinct.len() > 1
    });
    let count = mixed.count();
    assert!(count > 80, "{count} batches");
}

#[test]
fn thousands_are_thousands() {
    for index in 0..20 {
        let case = mixed(11, index).1;
        let shape = Shape::thousands(&mut Random::new(12, index));
        let batch = shape.batch(&case.text);
        assert!(shape.images() >= 1_000);
        assert!(batch.size == 0 || batch.images.len() / batch.size >= 1_000);
    }
}

#[test]
fn a_shape_gives_the_same_again_and_keeps_its_first_images() {
    for index in 0..200 {
        let text = mixed(13, index).1.text;
        let shape = || Shape::few(&mut Random::new(14, index));
        let batch = shape().batch(&text);
        assert_eq!(batch, shape().batch(&text));
        let fewer = shape().with_at_most(2).batch(&text);
        let kept = 2.min(shape().images()) * batch.size;
        assert_eq!(batch.images[..kept], fewer.images[..kept]);
    }
}
