//! Cases by hand, from the request and its readings.

use usages::{answer, read, Answer, Usage, Wanted};

fn taken(text: &str, dip: i32, end: i32, reliable: bool) {
    let wanted = Answer {
        number: 0,
        dip,
        end,
        reliable,
    };
    assert_eq!(answer(text.as_bytes()), wanted, "{text}");
}

fn refused(text: impl AsRef<[u8]>, number: u8) {
    let wanted = Answer {
        number,
        dip: 0,
        end: 0,
        reliable: false,
    };
    let text = text.as_ref();
    assert_eq!(answer(text), wanted, "{}", text.escape_ascii());
}

/// A usage in so many brackets.
fn bracketed(pairs: usize, text: &str) -> String {
    format!("{}{text}{}", "(".repeat(pairs), ")".repeat(pairs))
}

/// So many times the prefix, then 0.
fn chain(prefix: &str, times: usize) -> String {
    prefix.repeat(times) + "0"
}

#[test]
fn the_request_s_and_the_paper_s_own() {
    taken("L.L.(^L.0*^L.0)", 0, 0, true);
    taken("L.(L.0*^L.0)", 0, 1, false);
    taken("L.^L.^L.0", 1, -1, false);
    taken("(L.^L.0)&(L.^L.0)", 0, 0, true);
    taken("L.(^L.0&0)", 0, 1, false);
    taken("^L.L.0", 1, 0, false);
    taken("L.^L.0", 0, 0, true);
    taken("0", 0, 0, true);
}

#[test]
fn what_binds_tighter() {
    let zero = || Usage::Zero;
    let read = |text: &str| read(text.as_bytes()).expect("a usage").usage;
    let lock = || Usage::Zero.lock();
    assert_eq!(
        read("L.0&0*^L.0"),
        lock().choice(zero().parallel(zero().unlock()))
    );
    assert_eq!(read("0*L.0&0"), zero().parallel(lock()).choice(zero()));
    assert_eq!(read("0*L.0*0"), zero().parallel(lock()).parallel(zero()));
    assert_eq!(read("0&L.0&0"), zero().choice(lock()).choice(zero()));
    assert_eq!(read("0&(L.0&0)"), zero().choice(lock().choice(zero())));
    assert_eq!(
        read("L.(0&0)*0"),
        zero().choice(zero()).lock().parallel(zero())
    );
    assert_eq!(read("^L.L.((0))"), lock().unlock());
}

#[test]
fn texts_that_are_none() {
    for text in [
        "", "L", "^", ".", "L.", "^L", "^L.", "()", "(", ")", "(0", "0)", "00", "0L.0", "*", "&",
        "0*", "0&", "*0", "0**0", "0&*0", "l.0", "0 ", " 0", "0\n", "^^L.0", "L^.0", "^0", "L0",
        "L.L", "1", "(0)(0)", "0(0)", "L.*0", "LL.0", "\u{2297}", "0\0",
    ] {
        refused(text, 41);
    }
    refused([0xFF], 41);
}

#[test]
fn the_first_wrong_byte() {
    for (text, at, wanted) in [
        ("", 0, Wanted::Usage),
        ("l.0", 0, Wanted::Usage),
        ("L", 1, Wanted::Dot),
        ("^0", 1, Wanted::Letter),
        ("0)", 1, Wanted::SignOrEnd),
        ("0\n", 1, Wanted::SignOrEnd),
        ("((0)", 4, Wanted::SignOrBracket),
        ("((0)L", 4, Wanted::SignOrBracket),
        ("L.(L.0*^l.0)", 8, Wanted::Letter),
        ("0*&0", 2, Wanted::Usage),
        ("()", 1, Wanted::Usage),
    ] {
        let wrong = read(text.as_bytes()).expect_err("no usage");
        assert_eq!((wrong.at, wrong.wanted), (at, wanted), "{text}");
    }
}

#[test]
fn length() {
    let longest = "^L.0".to_string() + &"*0".repeat(126);
    assert_eq!(longest.len(), 256);
    taken(&longest, 1, -1, false);
    refused("x".repeat(256), 41);
    let longer = "0".to_string() + &"*0".repeat(128);
    assert_eq!(longer.len(), 257);
    refused(longer, 40);
}

#[test]
fn depth() {
    taken(&bracketed(16, "0"), 0, 0, true);
    taken(
        &(bracketed(16, "0") + "*" + &bracketed(16, "0")),
        0,
        0,
        true,
    );
    refused(bracketed(17, "0"), 42);
    refused(bracketed(127, "0"), 42);
    refused("0&".to_string() + &bracketed(17, "L.0"), 42);
}

#[test]
fn range() {
    taken(&chain("^L.", 63), 63, -63, false);
    refused(chain("^L.", 64), 43);
    taken(&chain("L.", 63), 0, 63, false);
    refused(chain("L.", 64), 43);
    // Parts are wider than the whole.
    taken(&("L.".to_string() + &chain("^L.", 64)), 63, -63, false);
    taken(&("L.".repeat(20) + &chain("^L.", 64)), 44, -44, false);
    // The dip is too high, and the end is not.
    refused("^L.".repeat(64) + "L.0", 43);
}

#[test]
fn the_lowest_number_comes_first() {
    // 40 before 41, 42 and 43.
    refused("x".repeat(257), 40);
    refused(bracketed(128, "0"), 40);
    refused(chain("L.", 128), 40);
    // 41 before 42 and 43.
    refused(bracketed(17, "0") + "x", 41);
    refused("(".repeat(256), 41);
    refused(bracketed(17, "L"), 41);
    refused(chain("L.", 64) + "0", 41);
    // 42 before 43.
    refused(bracketed(17, &chain("L.", 64)), 42);
}
