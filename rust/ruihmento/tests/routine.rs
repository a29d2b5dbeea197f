//! A routine that owns its text: by name, over one memory and over many.

use ruihmento::{Kind, Misfit, Refusal, Routine, ANSWER_BYTES};

/// Document 01's routine.
const ROUTINE: &str = "bool block[4] ok; int block[4] s; int block[4] t = 10; \
    if (ok) { if (s < t) s = s + t; else s = s - t; } else ;";

/// Document 01's routine, and a memory with its samples.
fn routine() -> (Routine, Vec<u8>) {
    let routine = Routine::new(ROUTINE).unwrap();
    let mut memory = vec![0xaa; routine.need()];
    let ok = [true, false, true, false];
    routine.set_bools(&mut memory, "ok", &ok).unwrap();
    routine.set_ints(&mut memory, "s", &[4, 7, 25, 90]).unwrap();
    (routine, memory)
}

#[test]
fn samples_by_name_make_the_memory_of_document_01() {
    let (routine, mut memory) = routine();
    assert_eq!((routine.need(), memory.len()), (48, 48));
    assert_eq!(memory[..5], [1, 0, 1, 0, 0xaa]);
    let ended = routine.run(&mut memory, 1_000).unwrap();
    assert_eq!((ended.need, ended.steps), (48, 8));
    assert!(routine.ints(&memory, "s").unwrap().eq([14, 7, 15, 90]));
    assert!(routine.ints(&memory, "t").unwrap().eq([10; 4]));
    let ok = routine.bools(&memory, "ok").unwrap();
    assert_eq!(ok.len(), 4);
    assert!(ok.eq([true, false, true, false]));
}

/// The same over blocks of 64 lanes, as a card with 64 samples delivers them.
#[test]
fn samples_of_64_lanes_go_in_and_come_back_by_name() {
    let routine = Routine::new(ROUTINE.replace("[4]", "[64]")).unwrap();
    let mut memory = vec![0xaa; routine.need()];
    assert_eq!(memory.len(), 768);
    let ok: Vec<bool> = (0..64).map(|lane| lane % 3 == 0).collect();
    let samples: Vec<i32> = (0..64).map(|lane| lane - 40).collect();
    routine.set_bools(&mut memory, "ok", &ok).unwrap();
    routine.set_ints(&mut memory, "s", &samples).unwrap();
    assert_eq!(routine.run(&mut memory, 1_000).unwrap().steps, 8);
    let expected = samples.iter().zip(&ok).map(|(s, ok)| match ok {
        true if *s < 10 => s + 10,
        true => s - 10,
        false => *s,
    });
    assert!(routine.ints(&memory, "s").unwrap().eq(expected));
    assert!(routine.bools(&memory, "ok").unwrap().eq(ok));
    let misfit = routine
        .set_ints(&mut memory, "s", &samples[..16])
        .unwrap_err();
    let words = "`s` has length 64, and the values have length 16";
    assert_eq!(misfit.to_string(), words);
}

/// Amplitudes as they are measured: a lane that is not valid keeps what it has.
#[test]
fn floats_go_in_and_come_back_by_name() {
    let text = ROUTINE.replace("int", "float").replace("= 10", "= 10.0");
    let routine = Routine::new(text).unwrap();
    let mut memory = vec![0xaa; routine.need()];
    let ok = [true, false, true, false];
    routine.set_bools(&mut memory, "ok", &ok).unwrap();
    let samples = [4.25, 7.5, -0.0, f32::NAN];
    routine.set_floats(&mut memory, "s", &samples).unwrap();
    assert_eq!(routine.run(&mut memory, 1_000).unwrap().steps, 7);
    let s: Vec<f32> = routine.floats(&memory, "s").unwrap().collect();
    assert_eq!(s[..3], [14.25, 7.5, 10.0]);
    assert_eq!(s[3].to_bits(), f32::NAN.to_bits());
    assert!(routine.floats(&memory, "t").unwrap().eq([10.0; 4]));
    let misfit = routine.set_ints(&mut memory, "s", &[1; 4]).unwrap_err();
    assert_eq!(misfit.to_string(), "`s` is float, and the values are int");
    let misfit = routine.floats(&memory, "S").err().unwrap();
    let words = "no variable is named `S`; the nearest is `s`";
    assert_eq!(misfit.to_string(), words);
}

#[test]
fn a_run_that_is_stopped_says_where_and_how_far() {
    let (routine, mut memory) = routine();
    let stopped = routine.run(&mut memory, 6).unwrap_err();
    assert_eq!(stopped.refusal, Refusal::BudgetSpent);
    assert_eq!((stopped.place, stopped.need, stopped.steps), (92, 48, 6));
    assert!(routine.ints(&memory, "s").unwrap().eq([14, 7, 25, 90]));

    let before = memory.clone();
    let stopped = routine.run(&mut memory[..47], 6).unwrap_err();
    assert_eq!(stopped.refusal, Refusal::MemoryTooShort);
    assert_eq!((stopped.need, stopped.steps), (48, 0));
    assert_eq!(memory, before);
}

#[test]
fn a_refused_text_makes_no_routine() {
    let refused = Routine::new("int x").unwrap_err();
    assert_eq!((refused.refusal, refused.place), (Refusal::NotAllowed, 5));
    let refused = Routine::new([b';'; 4097]).unwrap_err();
    assert_eq!((refused.refusal, refused.place), (Refusal::TextTooLong, 0));
}

#[test]
fn names_that_are_not_there_are_told_with_the_nearest() {
    let routine = Routine::new("int block[2] sample; bool ok;").unwrap();
    let unknown = |name: &str, nearest: Option<&str>| Misfit::UnknownName {
        name: name.into(),
        nearest: nearest.map(String::from),
    };
    let misfit = routine.set_ints(&mut [0; 9], "smaple", &[1, 2]);
    assert_eq!(misfit, Err(unknown("smaple", Some("sample"))));
    let misfit = routine.ints(&[0; 9], "pressure").err();
    assert_eq!(misfit, Some(unknown("pressure", None)));
    let misfit = routine.bools(&[0; 9], "OK").err();
    assert_eq!(misfit, Some(unknown("OK", Some("ok"))));
}

#[test]
fn what_does_not_fit_is_said_in_words() {
    let routine = Routine::new("int block[2] v; bool b;").unwrap();
    let words = |misfit: Misfit| misfit.to_string();
    let memory = &mut [0xaa; 9];
    let misfit = routine.set_ints(memory, "b", &[1]).unwrap_err();
    assert_eq!(words(misfit), "`b` is bool, and the values are int");
    let misfit = routine.set_ints(memory, "v", &[1]).unwrap_err();
    assert_eq!(
        words(misfit),
        "`v` has length 2, and the values have length 1"
    );
    let misfit = routine
        .set_bools(&mut memory[..8], "b", &[true])
        .unwrap_err();
    assert_eq!(
        words(misfit),
        "`b` ends at byte 9, and the memory at byte 8"
    );
    let misfit = routine.set_bools(memory, "c", &[true]).unwrap_err();
    assert_eq!(words(misfit), "no variable is named `c`");
    assert_eq!(memory, &[0xaa; 9]);
}

#[test]
fn a_name_is_that_of_its_first_declaration() {
    let routine = Routine::new("{ int v; } { bool block[4] v; }").unwrap();
    let listed: Vec<_> = routine.variables().map(|v| (v.name, v.kind)).collect();
    assert_eq!(listed, [("v", Kind::Int), ("v", Kind::Bool)]);
    assert_eq!(routine.variable("v").unwrap().kind, Kind::Int);
    let mut memory = vec![0; routine.need()];
    routine.set_ints(&mut memory, "v", &[258]).unwrap();
    let second = routine.variables().nth(1).unwrap();
    second.set_bools(&mut memory, &[true; 4]).unwrap();
    assert_eq!(memory, [2, 1, 0, 0, 1, 1, 1, 1]);
}

#[test]
fn each_image_is_run_as_if_alone() {
    let (routine, image) = routine();
    for size in [47, 48, 50] {
        let mut padded = image.clone();
        padded.resize(size, 0x5a);
        let mut images: Vec<u8> = padded.iter().copied().cycle().take(3 * size + 20).collect();
        images[size] = 0; // The second image lacks its first sample.
        let mut one_by_one = images.clone();
        let alone = one_by_one.chunks_exact_mut(size);
        let alone: Vec<_> = alone.map(|image| routine.run(image, 7)).collect();
        assert_eq!(alone.len(), 3);
        let mut again = images.clone();
        assert_eq!(routine.run_each(&mut images, size, 7), alone);
        assert_eq!(images, one_by_one);
        let mut answers = [0; 3 * ANSWER_BYTES];
        let ends = routine.run_each_into(&mut again, size, 7, &mut answers);
        assert!(ends.eq(alone));
        assert_eq!(again, one_by_one);
    }
    assert_eq!(routine.run_each(&mut [0; 47], 48, 7), []);
    assert_eq!(routine.run_each(&mut [0; 47], 0, 7), []);
}

#[test]
fn no_image_is_run_without_room_for_its_answer() {
    let (routine, image) = routine();
    for room in [0, 15, 16, 31, 32, 47, 48, 100] {
        let (mut images, mut answers) = (image.repeat(3), vec![0x5a; room]);
        let whole = (room / ANSWER_BYTES).min(3);
        let ends = routine.run_each_into(&mut images, 48, 1_000, &mut answers);
        assert_eq!(ends.len(), whole);
        assert!(ends.eq(vec![routine.run(&mut image.clone(), 1_000); whole]));
        assert_eq!(images[48 * whole..], image.repeat(3 - whole));
        assert!(answers[16 * whole..].iter().all(|byte| *byte == 0x5a));
    }
}

#[test]
fn threads_share_a_routine() {
    let (routine, memory) = routine();
    let run = || {
        let mut memory = memory.clone();
        routine.run(&mut memory, 1_000).map(|_| memory)
    };
    let left = run().unwrap();
    std::thread::scope(|scope| {
        let threads: Vec<_> = (0..4).map(|_| scope.spawn(run)).collect();
        for thread in threads {
            assert_eq!(thread.join().unwrap().as_ref(), Ok(&left));
        }
    });
}
