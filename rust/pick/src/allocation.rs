//! How many methods each stratum gives.

/// How the sample is shared out.
#[derive(Clone, Debug, PartialEq)]
pub enum Allocation {
    /// By the strata's sizes.
    Proportional,
    /// As many of each.
    Equal,
    /// By the strata's sizes times a weight of each.
    Weighted(Vec<f64>),
}

/// How many each stratum gives of `count` in all, at least `least` of each that has them, by largest remainders. No stratum gives more than it has; where the
/// strata have too few, or the least are more than `count`, the sum is what they come to.
pub fn allocated(sizes: &[usize], count: usize, least: usize, how: &Allocation) -> Vec<usize> {
    let share = |k: usize| match how {
        Allocation::Proportional => sizes[k] as f64,
        Allocation::Equal => 1.0,
        Allocation::Weighted(weights) => sizes[k] as f64 * weights.get(k).copied().unwrap_or(1.0),
    };
    let mut out: Vec<usize> = sizes.iter().map(|&n| n.min(least)).collect();
    let wanted = count.min(sizes.iter().sum());
    // Strata that are full, or have their least already above their share, are set aside; the rest is shared out again.
    let mut open: Vec<usize> = (0..sizes.len())
        .filter(|&k| share(k) > 0.0 && out[k] < sizes[k])
        .collect();
    loop {
        let given: usize = (0..sizes.len())
            .filter(|k| !open.contains(k))
            .map(|k| out[k])
            .sum();
        let left = wanted.saturating_sub(given) as f64;
        let whole: f64 = open.iter().map(|&k| share(k)).sum();
        let quota = |k: usize| left * share(k) / whole;
        let (over, fits): (Vec<usize>, Vec<usize>) =
            open.iter().partition(|&&k| quota(k) >= sizes[k] as f64);
        if !over.is_empty() {
            over.iter().for_each(|&k| out[k] = sizes[k]);
            open = fits;
            continue;
        }
        let (under, fits): (Vec<usize>, Vec<usize>) =
            open.iter().partition(|&&k| quota(k) < out[k] as f64);
        if under.is_empty() {
            return remainders(out, &open, left as usize, quota);
        }
        open = fits;
    }
}

/// Whole parts of the quotas, and one more for the largest remainders, the earlier of equal ones first.
fn remainders(
    mut out: Vec<usize>,
    open: &[usize],
    left: usize,
    quota: impl Fn(usize) -> f64,
) -> Vec<usize> {
    for &k in open {
        out[k] = quota(k).floor() as usize;
    }
    let given: usize = open.iter().map(|&k| out[k]).sum();
    let mut order = open.to_vec();
    order.sort_by(|&a, &b| {
        quota(b)
            .fract()
            .total_cmp(&quota(a).fract())
            .then(a.cmp(&b))
    });
    for &k in order.iter().take(left.saturating_sub(given)) {
        out[k] += 1;
    }
    out
}

#[cfg(test)]
mod tests {
    use super::*;
    use Allocation::{Equal, Proportional, Weighted};

    #[test]
    fn by_size_by_number_and_by_weight() {
        assert_eq!(allocated(&[80, 15, 5], 20, 0, &Proportional), [16, 3, 1]);
        assert_eq!(allocated(&[80, 15, 5], 9, 0, &Equal), [3, 3, 3]);
        assert_eq!(
            allocated(&[80, 10, 10], 20, 0, &Weighted(vec![1.0, 6.0, 6.0])),
            [8, 6, 6]
        );
        assert_eq!(
            allocated(&[80, 10, 10], 20, 0, &Weighted(vec![0.0, 1.0, 1.0])),
            [0, 10, 10]
        );
    }

    #[test]
    fn the_least_and_the_most() {
        assert_eq!(allocated(&[96, 3, 1], 10, 2, &Proportional), [7, 2, 1]);
        assert_eq!(allocated(&[2, 100], 10, 0, &Equal), [2, 8]);
        assert_eq!(allocated(&[5, 5], 100, 0, &Proportional), [5, 5]);
        assert_eq!(allocated(&[5, 5], 0, 0, &Proportional), [0, 0]);
        assert_eq!(allocated(&[5, 5], 1, 2, &Proportional), [2, 2]);
        assert_eq!(allocated(&[0, 1], 1, 1, &Equal), [0, 1]);
        assert_eq!(allocated(&[], 3, 1, &Equal), [0usize; 0]);
    }

    #[test]
    fn remainders_go_to_the_largest() {
        assert_eq!(allocated(&[1, 1, 1], 2, 0, &Proportional), [1, 1, 0]);
        assert_eq!(allocated(&[50, 30, 20], 7, 0, &Proportional), [4, 2, 1]);
    }
}
