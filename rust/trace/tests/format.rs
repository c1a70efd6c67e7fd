//! The trace program's input and output.

use generator::builder::{case_a, lay_out};
use generator::families;
use generator::rng::Rng;
use generator::schedule::{any_state, schedule};
use reference::machine::{fresh, State, Value};
use trace::{
    decode_input, decode_output, decode_state, encode_input, encode_output, encode_state, follow,
    run, Input, BAD_INPUT, MAX_STEPS, STATE_BYTES,
};

#[test]
fn case_a_prints_as_told() {
    let b = lay_out(&[case_a()]);
    let text = run(&encode_input(&b, None, &[0x00, 0xF1, 0x89]));
    let lines: Vec<&str> = text.lines().collect();
    assert_eq!(lines[0], "fresh 0");
    assert_eq!(lines[1], "step 1 thread 0 answer 0");
    assert_eq!(lines[2], "step 2 thread 1 answer 5 fails");
    assert_eq!(lines[3], "step 3 thread 9 answer 5 fails");
    let places = "i0 ".repeat(15) + "i0";
    let top = "r1".to_string() + &" i0".repeat(15);
    let counts = "0 ".repeat(31) + "0";
    assert_eq!(
        lines[4],
        format!(
            "thread 0 live 1 class 0 address 2 depth 1 vars {places} stack {top} counts {counts} held 0"
        )
    );
    assert_eq!(lines[12], format!("objects 2 classes {counts}"));
    let fields = "i0 ".repeat(127) + "i0";
    assert_eq!(lines[13], format!("fields {fields}"));
    assert_eq!(lines.len(), 14);
}

#[test]
fn states_come_back() {
    for seed in 0..2_000 {
        let (_, b) = families::bundle(seed);
        let state = any_state(&mut Rng::new(seed), &b);
        let bytes = encode_state(&state);
        assert_eq!(bytes.len(), STATE_BYTES);
        assert_eq!(decode_state(&bytes), Some(state));
    }
}

#[test]
fn inputs_and_outputs_come_back() {
    for seed in 0..500 {
        let (_, b) = families::bundle(seed);
        if b.len() > 65_535 {
            continue;
        }
        let start = (seed % 2 == 0).then(|| any_state(&mut Rng::new(seed), &b));
        let begin = start.clone().unwrap_or_else(|| fresh(&b).1);
        let turns = schedule(&b, &begin, seed, 40);
        let bytes = encode_input(&b, start.as_ref(), &turns);
        let input = Input {
            bundle: &b,
            start,
            schedule: &turns,
        };
        assert_eq!(decode_input(&bytes), Some(input.clone()));
        let output = follow(&input);
        assert_eq!(decode_output(&encode_output(&output)), Some(output));
    }
}

#[test]
fn bad_inputs() {
    let b = lay_out(&[case_a()]);
    let good = encode_input(&b, Some(&State::EMPTY), &[0]);
    let judge = |input: &[u8]| run(input) == BAD_INPUT;
    assert!(!judge(&good));
    assert!(judge(&[]) && judge(&good[..50]) && judge(&good[..b.len() + 2]));
    assert!(judge(&good[..good.len() - 2]));
    let changed = |at: usize, byte: u8| {
        let mut input = good.clone();
        input[b.len() + 2 + at] = byte;
        judge(&input)
    };
    assert!(changed(0, 2), "mode");
    assert!(changed(1, 2), "live");
    assert!(changed(6, 3), "kind");
    assert!(!changed(6, 1), "a reference");
    assert!(!changed(6, 2), "null");
    let field = 1 + 2_500;
    assert!(changed(field, 3), "a field's kind");
    assert!(!changed(field, 2), "a field's null");
    assert!(!changed(STATE_BYTES, 255), "any word");
    let mut state = State::EMPTY;
    state.threads[0].variables[0] = Value::Ref(7);
    let mut bytes = encode_state(&state);
    bytes[8] = 1;
    assert_eq!(decode_state(&bytes), None, "a reference above 255");
    for at in 6..10 {
        let mut bytes = encode_state(&State::EMPTY);
        (bytes[5], bytes[at]) = (2, 1);
        assert_eq!(decode_state(&bytes), None, "null with other bytes than 0");
    }
    assert!(!judge(&encode_input(&b, None, &[0; MAX_STEPS])));
    assert!(judge(&encode_input(&b, None, &[0; MAX_STEPS + 1])));
}

/// A field of the first object and the last place of all.
#[test]
fn fields_stand_behind_the_classes() {
    let mut state = State::EMPTY;
    state.fields[1] = Value::Null;
    state.fields[127] = Value::Ref(3);
    state.threads[7].stack[15] = Value::Null;
    let bytes = encode_state(&state);
    assert_eq!(bytes[1_865..1_875], [0, 0, 0, 0, 0, 2, 0, 0, 0, 0]);
    assert_eq!(bytes[2_500..2_505], [1, 0, 0, 0, 3]);
    assert_eq!(decode_state(&bytes), Some(state.clone()));
    let text = run(&encode_input(&[], Some(&state), &[]));
    let last = text.lines().last().expect("a line");
    assert!(last.starts_with("fields i0 null i0 "), "{last}");
    assert!(last.ends_with(" i0 r3"), "{last}");
    assert_eq!(last.split(' ').count(), 129);
    assert_eq!(decode_output(&text).map(|output| output.state), Some(state));
}

/// The high byte of a word comes first; its text is one number.
#[test]
fn words_stand_at_the_end() {
    let mut state = State::EMPTY;
    state.held[0] = 1 << 31 | 2;
    state.held[7] = 0x0102_0304;
    let bytes = encode_state(&state);
    assert_eq!(bytes.len(), 2_537);
    assert_eq!(bytes[2_505..2_513], [128, 0, 0, 2, 0, 0, 0, 0]);
    assert_eq!(bytes[2_533..], [1, 2, 3, 4]);
    assert_eq!(decode_state(&bytes), Some(state.clone()));
    assert_eq!(decode_state(&bytes[..2_505]), None, "without words");
    assert_eq!(decode_state(&bytes[..2_536]), None, "cut short");
    assert_eq!(decode_state(&[bytes, vec![0]].concat()), None, "too long");
    let text = run(&encode_input(&[], Some(&state), &[]));
    let threads: Vec<&str> = text.lines().skip(1).take(8).collect();
    assert!(threads[0].ends_with(" 0 held 2147483650"), "{}", threads[0]);
    assert!(threads[1].ends_with(" 0 held 0"), "{}", threads[1]);
    assert!(threads[7].ends_with(" 0 held 16909060"), "{}", threads[7]);
    assert_eq!(decode_output(&text).map(|output| output.state), Some(state));
}

/// A word that disagrees is given back as it came, with 18.
#[test]
fn a_word_that_disagrees_stays() {
    let b = lay_out(&[case_a()]);
    let (_, mut state) = fresh(&b);
    state.held[5] = 4;
    let text = run(&encode_input(&b, Some(&state), &[0]));
    assert_eq!(text.lines().nth(1), Some("step 1 thread 0 answer 18"));
    assert_eq!(decode_output(&text).map(|output| output.state), Some(state));
}

/// In case A thread 0 takes object 1 in its third step and gives it back in its
/// sixth.
#[test]
fn case_a_holds_object_1_for_three_steps() {
    let b = lay_out(&[case_a()]);
    let held = [0, 0, 2, 2, 2, 0, 0];
    for (steps, word) in (1..).zip(held) {
        let text = run(&encode_input(&b, None, &vec![0; steps]));
        let line = text.lines().nth(1 + steps).expect("thread 0");
        assert!(line.ends_with(&format!(" held {word}")), "{steps}: {line}");
    }
}
