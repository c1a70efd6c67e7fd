//! How likely so few of a stratum would be, had a list been drawn at random.

/// ln n! for n up to a number.
fn log_factorials(most: usize) -> Vec<f64> {
    let mut out = vec![0.0; most + 1];
    for n in 1..=most {
        out[n] = out[n - 1] + (n as f64).ln();
    }
    out
}

/// The probability that a draw of `drawn` out of `all`, without replacement and each set as likely, has at most `seen` of the `marked` (the lower tail of the
/// hypergeometric distribution).
pub fn at_most(seen: usize, drawn: usize, marked: usize, all: usize) -> f64 {
    if drawn > all || marked > all {
        return f64::NAN;
    }
    let logs = log_factorials(all);
    let choose = |n: usize, k: usize| logs[n] - logs[k] - logs[n - k];
    let whole = choose(all, drawn);
    let first = (drawn + marked).saturating_sub(all);
    let last = seen.min(drawn).min(marked);
    let one = |k: usize| (choose(marked, k) + choose(all - marked, drawn - k) - whole).exp();
    (first..=last).map(one).sum::<f64>().min(1.0)
}

#[cfg(test)]
mod tests {
    use super::*;

    fn near(a: f64, b: f64) {
        assert!((a - b).abs() < 1e-12, "{a} {b}");
    }

    #[test]
    fn small_ones_by_hand() {
        // 5 of 10 drawn, 4 marked: none of them C(6,5) / C(10,5) = 6 / 252, at most one (6 + 4 C(6,4)) / 252
        near(at_most(0, 5, 4, 10), 6.0 / 252.0);
        near(at_most(1, 5, 4, 10), 66.0 / 252.0);
        near(at_most(4, 5, 4, 10), 1.0);
        near(at_most(0, 3, 0, 10), 1.0);
        // all drawn: all marked ones are there
        near(at_most(3, 10, 4, 10), 0.0);
        near(at_most(4, 10, 4, 10), 1.0);
        assert!(at_most(0, 11, 1, 10).is_nan());
    }
}
