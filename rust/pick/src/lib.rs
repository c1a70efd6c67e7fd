//! A stratified random sample of methods, with known probabilities.
//!
//! ```
//! use pick::{drawn, Allocation, Design};
//! let methods = [("a", 0), ("b", 0), ("c", 1)].map(|(name, stratum)| (name.to_owned(), stratum));
//! let design = Design { count: 2, seed: 7, least: 1, how: Allocation::Proportional };
//! let sample = drawn(&methods, 2, &design);
//! assert_eq!(sample.picks.len(), 2);
//! assert_eq!(sample.probability(1), 1.0);
//! ```

mod allocation;
mod chance;
mod key;

pub use allocation::{allocated, Allocation};
pub use chance::at_most;
pub use key::{key, siphash};

/// How a sample is drawn.
#[derive(Clone, Debug)]
pub struct Design {
    pub count: usize,
    pub seed: u64,
    /// At least so many of each stratum that has them.
    pub least: usize,
    pub how: Allocation,
}

/// A sample: the methods that were drawn, by their places in the list, in the order of the strata and then of their names.
#[derive(Clone, Debug, PartialEq, Eq)]
pub struct Sample {
    pub picks: Vec<usize>,
    /// How many methods each stratum has, and how many it gave.
    pub sizes: Vec<usize>,
    pub given: Vec<usize>,
}

impl Sample {
    /// The probability that a method of a stratum is drawn.
    pub fn probability(&self, stratum: usize) -> f64 {
        match self.sizes[stratum] {
            0 => 0.0,
            size => self.given[stratum] as f64 / size as f64,
        }
    }

    /// What a drawn method of a stratum stands for: 1 / probability.
    pub fn weight(&self, stratum: usize) -> f64 {
        1.0 / self.probability(stratum)
    }
}

/// A sample of methods, each with its name and its stratum's number. Names must differ; of equal ones the first is drawn first.
pub fn drawn(methods: &[(String, usize)], strata: usize, design: &Design) -> Sample {
    let mut members: Vec<Vec<usize>> = vec![Vec::new(); strata];
    for (k, (_, stratum)) in methods.iter().enumerate() {
        members[*stratum].push(k);
    }
    let sizes: Vec<usize> = members.iter().map(Vec::len).collect();
    let given = allocated(&sizes, design.count, design.least, &design.how);
    let mut picks = Vec::new();
    for (inside, &n) in members.iter_mut().zip(&given) {
        inside.sort_by_cached_key(|&k| (key(design.seed, &methods[k].0), &methods[k].0));
        inside.truncate(n);
        inside.sort_by_key(|&k| &methods[k].0);
        picks.extend(&*inside);
    }
    Sample {
        picks,
        sizes,
        given,
    }
}

#[cfg(test)]
mod tests {
    use super::*;

    fn population() -> Vec<(String, usize)> {
        (0..20)
            .map(|k| (format!("C.m{k}()V"), if k < 14 { 0 } else { 1 }))
            .collect()
    }

    #[test]
    fn the_order_of_the_methods_does_not_matter() {
        let methods = population();
        let design = Design {
            count: 6,
            seed: 3,
            least: 0,
            how: Allocation::Proportional,
        };
        let names = |list: &[(String, usize)]| -> Vec<String> {
            drawn(list, 2, &design)
                .picks
                .iter()
                .map(|&k| list[k].0.clone())
                .collect()
        };
        let mut turned = methods.clone();
        turned.reverse();
        turned.swap(3, 11);
        assert_eq!(names(&methods), names(&turned));
    }

    #[test]
    fn another_method_changes_one_pick_at_most() {
        let methods = population();
        let design = Design {
            count: 6,
            seed: 9,
            least: 0,
            how: Allocation::Equal,
        };
        let before: Vec<String> = drawn(&methods, 2, &design)
            .picks
            .iter()
            .map(|&k| methods[k].0.clone())
            .collect();
        for k in 0..50 {
            let mut more = methods.clone();
            more.push((format!("D.n{k}()V"), 1));
            let after: Vec<String> = drawn(&more, 2, &design)
                .picks
                .iter()
                .map(|&k| more[k].0.clone())
                .collect();
            assert!(after.iter().filter(|name| !before.contains(name)).count() <= 1);
        }
    }

    /// 100,000 draws with the seeds 0 to 99,999: each method's frequency against its probability. With 20 methods the statistic has 18 degrees of freedom
    /// (each stratum's frequencies have a fixed sum); a bound of 45.0 is passed by chance once in some 2,000 tries (99.95 %: 44.4).
    #[test]
    fn frequencies_are_the_stated_probabilities() {
        let methods = population();
        let mut counts = [0u32; 20];
        let draws = 100_000;
        let mut sample = drawn(
            &methods,
            2,
            &Design {
                count: 6,
                seed: 0,
                least: 2,
                how: Allocation::Proportional,
            },
        );
        for seed in 0..draws {
            sample = drawn(
                &methods,
                2,
                &Design {
                    count: 6,
                    seed,
                    least: 2,
                    how: Allocation::Proportional,
                },
            );
            for &k in &sample.picks {
                counts[k] += 1;
            }
        }
        let chi: f64 = counts
            .iter()
            .zip(&methods)
            .map(|(&n, &(_, stratum))| {
                let (p, size) = (sample.probability(stratum), sample.sizes[stratum] as f64);
                let expected = p * draws as f64;
                // The variance of a stratum's indicators, without replacement.
                let scale = expected * (1.0 - p) * size / (size - 1.0);
                (f64::from(n) - expected).powi(2) / scale
            })
            .sum();
        assert!(chi < 45.0, "{chi}");
        assert_eq!(sample.given, [4, 2]);
    }

    #[test]
    fn empty_strata_and_large_counts() {
        let one = [("only".to_owned(), 1)];
        let design = |count| Design {
            count,
            seed: 1,
            least: 1,
            how: Allocation::Equal,
        };
        let sample = drawn(&one, 3, &design(5));
        assert_eq!(
            (sample.picks.len(), sample.given.clone()),
            (1, vec![0, 1, 0])
        );
        assert_eq!(sample.weight(1), 1.0);
        assert_eq!(drawn(&[], 3, &design(5)).picks, [0usize; 0]);
    }
}
