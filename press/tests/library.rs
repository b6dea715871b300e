//! The wrapper: answers, bytes afterwards, and words.

mod common;

use common::{SAMPLES, bytes, refusals};
use press::layout::LONGEST;
use press::{Answer, Summary, check, explain, run};

#[test]
fn samples_end_as_expected() {
    for name in SAMPLES {
        let mut frame = bytes(&format!("{name}.frame"));
        let before = frame.clone();
        assert!(check(&frame).accepted(), "{name}");
        assert!(frame == before, "{name}: check altered it");
        let answer = run(&mut frame);
        assert_eq!((answer.number, answer.place), (0, 0), "{name}");
        assert!(frame == bytes(&format!("after/{name}.frame")), "{name}");
        assert!(frame != before, "{name}");
    }
}

#[test]
fn refused_frames_stay_and_are_explained() {
    let mut numbers = Vec::new();
    for (mut frame, number, place, words) in refusals() {
        let before = frame.clone();
        let answer = run(&mut frame);
        assert_eq!(answer, check(&before));
        assert_eq!(
            (answer.number, answer.place),
            (number, place as u64),
            "{words}"
        );
        assert!(frame == before, "{words}");
        let told = explain(&frame, answer);
        assert!(told.starts_with(&words), "{told}");
        assert!(Summary::of(&frame).is_none());
        numbers.push(number);
    }
    numbers.dedup();
    assert_eq!(numbers, [1, 2, 3, 4, 5, 6, 7, 8, 9]);
}

/// Any place of the frame may start a slice: nothing is asked of its alignment.
#[test]
fn at_any_alignment() {
    let (frame, after) = (bytes("mixed.frame"), bytes("after/mixed.frame"));
    for offset in 0..16 {
        let mut held = vec![0xA5; offset];
        held.extend(&frame);
        held.extend([0xA5; 16]);
        assert!(run(&mut held[offset..offset + frame.len()]).accepted());
        assert!(held[offset..offset + frame.len()] == after[..]);
        assert!(
            held[..offset]
                .iter()
                .chain(&held[offset + frame.len()..])
                .all(|&byte| byte == 0xA5)
        );
    }
}

/// Words for an answer that is not the frame's are of no use, but they do no harm.
#[test]
fn answers_of_other_frames() {
    for frame in [
        vec![],
        vec![0xFF; 300],
        bytes("distances.frame"),
        bytes("mixed.frame"),
    ] {
        for number in 0..12 {
            for place in [0, 1, 6, 25, 26, 56, 800, 5000, 40_000, u64::MAX] {
                explain(&frame, Answer { number, place });
            }
        }
    }
}

#[test]
fn a_summary_counts() {
    let after = Summary::of(&bytes("after/mixed.frame")).expect("it is finite");
    assert_eq!(
        (after.points, after.rows, after.mode, after.resweeps),
        (32, 90, 3, 8)
    );
    assert_eq!(after.kinds.map(|kind| kind.rows), [27, 9, 18, 18, 18]);
    assert_eq!(
        after.kinds.map(|kind| kind.strained).iter().sum::<u32>() as usize,
        after.strained.len()
    );
    assert_eq!(after.colours.values().flatten().sum::<u32>(), 90);
    assert!(!after.strained.is_empty());
    let words = after.to_string();
    assert!(
        words.contains("mode              3 (update and warm start)"),
        "{words}"
    );
    assert!(words.contains("neo-Hookean       18"), "{words}");
}

/// What follows the longest frame's bytes makes no difference.
#[test]
fn longer_than_any_frame() {
    assert_eq!(LONGEST, 26 + 4096 * (30 + 678));
    let mut longest = bytes("distances.frame");
    longest.resize(LONGEST + 100, 0);
    assert_eq!(check(&longest), check(&longest[..LONGEST + 1]));
}

#[test]
fn an_answer_displays_as_formrun_writes_it() {
    assert_eq!(
        Answer {
            number: 0,
            place: 0
        }
        .to_string(),
        "accepted"
    );
    let refused = bytes("refused.frame");
    let expected = String::from_utf8(bytes("after/refused.txt")).expect("a line");
    assert_eq!(format!("{}\n", check(&refused)), expected);
}
