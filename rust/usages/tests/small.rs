//! All usages of up to eight nodes: both ways to their numbers agree, and
//! their texts are read back.

use usages::{by_steps, read, up_to};

const NODES: usize = 8;

/// 1, 2, 6, 20, 72, 272, 1,064 and 4,272 of one to eight nodes.
#[test]
fn none_is_missing() {
    let all = up_to(NODES);
    assert_eq!(all.len(), 5_709);
    let different: std::collections::HashSet<_> = all.iter().collect();
    assert_eq!(different.len(), all.len());
    assert!(all.iter().all(|usage| usage.parts().len() <= NODES));
}

#[test]
fn steps_reach_what_appendix_a_says() {
    let mut reliable = 0;
    for usage in up_to(NODES) {
        let numbers = usage.numbers();
        let told = numbers.min == 0 && numbers.fin == 0;
        assert_eq!(by_steps(&usage), (numbers, told), "{usage}");
        reliable += usize::from(told);
    }
    assert_eq!(reliable, 179);
}

#[test]
fn what_is_written_is_read_back() {
    for usage in up_to(NODES) {
        for pairs in 0..3 {
            let text = usage.written(&mut || pairs);
            let reading = read(text.as_bytes()).expect("a usage");
            assert_eq!(reading.usage, usage, "{text}");
        }
    }
}
