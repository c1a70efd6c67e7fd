//! Which levels would do: the smallest, or a circle of classes.

use generator::builder::{lay_out, Method, Row};
use generator::families;
use reference::bundle::{Addr, Bundle, Instr, Var};
use reference::entries::Entry;
use reference::levels::{Demands, Site};
use reference::order::{Levels, Nesting, Place};
use reference::verify::{verify, verify_ordered};

const CLASSES: usize = 5;

/// A bundle that takes, pair by pair, the second class while the first is held:
/// class 0 has a monitorenter for each, at addresses 2, 3, .. behind a return.
/// Its rows need not follow from each other, since only the order is asked.
fn bundle(pairs: &[(u8, u8)]) -> Vec<u8> {
    let enter = Instr::Enter(Var(1), None);
    let row = |&(held, taken): &(u8, u8)| {
        let variables = [Entry::reference(held, 1, -1), Entry::fresh(taken)];
        Row::new(&variables, &[])
    };
    let none = || Row::new(&[Entry::Top, Entry::Top], &[]);
    let main = Method {
        variables: 2,
        code: [
            vec![Instr::Return],
            vec![enter; pairs.len()],
            vec![Instr::Return],
        ]
        .concat(),
        rows: [vec![none()], pairs.iter().map(row).collect(), vec![none()]].concat(),
        ..Method::default()
    };
    let other = Method {
        code: vec![Instr::Return],
        rows: vec![Row::default()],
        ..Method::default()
    };
    let mut methods = vec![other; CLASSES];
    methods[0] = main;
    lay_out(&methods)
}

fn demands(bytes: &[u8]) -> Demands {
    Demands::of(&Bundle::open_with_code(bytes).expect("it is read"))
}

/// The levels of the first five classes; the others have 0.
fn levels(pairs: &[(u8, u8)]) -> Option<[u8; CLASSES]> {
    let Levels(all) = demands(&bundle(pairs)).levels()?;
    assert_eq!(all[CLASSES..], [0; 3]);
    all[..CLASSES].try_into().ok()
}

/// The classes of the circle, each above the next and the last above the first.
fn circle(pairs: &[(u8, u8)]) -> Option<Vec<u8>> {
    let sites = demands(&bundle(pairs)).circle()?;
    let next = sites.iter().skip(1).chain(&sites[..1]);
    for (site, next) in sites.iter().zip(next) {
        assert_eq!(site.nesting.taken, next.nesting.held);
    }
    Some(sites.iter().map(|site| site.nesting.held).collect())
}

#[test]
fn where_nothing_nests_all_levels_are_0() {
    assert_eq!(levels(&[]), Some([0; CLASSES]));
    assert_eq!(circle(&[]), None);
}

#[test]
fn the_levels_are_the_smallest() {
    assert_eq!(levels(&[(0, 1)]), Some([1, 0, 0, 0, 0]));
    assert_eq!(levels(&[(4, 1), (4, 1)]), Some([0, 0, 0, 0, 1]));
    assert_eq!(levels(&[(0, 1), (1, 2)]), Some([2, 1, 0, 0, 0]));
    assert_eq!(levels(&[(1, 2), (0, 1), (0, 2)]), Some([2, 1, 0, 0, 0]));
    assert_eq!(
        levels(&[(3, 2), (3, 0), (0, 4), (4, 1)]),
        Some([2, 0, 0, 3, 1])
    );
    let chain = [(0, 1), (1, 2), (2, 3), (3, 4)];
    assert_eq!(levels(&chain), Some([4, 3, 2, 1, 0]));
    assert_eq!(circle(&chain), None);
}

#[test]
fn a_class_above_itself_is_a_circle() {
    assert_eq!(levels(&[(0, 1), (3, 3)]), None);
    assert_eq!(circle(&[(0, 1), (3, 3)]), Some(vec![3]));
}

#[test]
fn a_shortest_circle_is_named() {
    assert_eq!(circle(&[(0, 1), (1, 0)]), Some(vec![0, 1]));
    let long = [(0, 1), (1, 2), (2, 3), (3, 0)];
    assert_eq!(circle(&long), Some(vec![0, 1, 2, 3]));
    assert_eq!(levels(&long), None);
    assert_eq!(circle(&[&long[..], &[(3, 2)]].concat()), Some(vec![2, 3]));
    assert_eq!(
        circle(&[&long[..], &[(3, 1)]].concat()),
        Some(vec![1, 2, 3])
    );
    assert_eq!(
        circle(&[&long[..], &[(3, 2), (2, 2)]].concat()),
        Some(vec![2])
    );
}

#[test]
fn each_pair_is_told_where_it_first_arises() {
    let site = |address, held, taken| Site {
        class: 0,
        address: Addr(address),
        nesting: Nesting {
            taken,
            held,
            place: Place::Variable(0),
        },
    };
    let demands = demands(&bundle(&[(2, 0), (0, 2), (2, 0), (1, 0)]));
    let all: Vec<Site> = demands.sites().copied().collect();
    assert_eq!(all, [site(3, 0, 2), site(5, 1, 0), site(2, 2, 0)]);
    let circle = demands.circle();
    assert_eq!(circle, Some(vec![site(3, 0, 2), site(2, 2, 0)]));
}

/// All levels below four of three classes, and 0 for the others.
fn small_levels() -> impl Iterator<Item = [u8; CLASSES]> {
    (0..64).map(|number| [number % 4, number / 4 % 4, number / 16, 0, 0])
}

/// Every relation of three classes: levels do exactly where they are found,
/// and those found are the least of all that do, class by class.
#[test]
fn all_relations_of_three_classes() {
    for relation in 0..512 {
        let all = (0..3).flat_map(|held| (0..3).map(move |taken| (held, taken)));
        let chosen = all.filter(|(held, taken)| relation >> (3 * held + taken) & 1 == 1);
        let pairs: Vec<(u8, u8)> = chosen.collect();
        let level = |levels: &[u8; CLASSES], class: u8| levels[usize::from(class)];
        let do_all = |levels: &[u8; CLASSES]| {
            let mut pairs = pairs.iter();
            pairs.all(|&(held, taken)| level(levels, held) > level(levels, taken))
        };
        let lower = |a: [u8; CLASSES], b: [u8; CLASSES]| std::array::from_fn(|c| a[c].min(b[c]));
        let least = small_levels().filter(do_all).reduce(lower);
        assert_eq!(levels(&pairs), least, "{pairs:?}");
        assert_eq!(circle(&pairs).is_some(), least.is_none(), "{pairs:?}");
    }
}

/// On generated bundles: the levels found are accepted, any of them lowered is
/// refused, and where none are found those of any list are refused.
#[test]
fn generated_bundles() {
    let (mut found, mut nested, mut circles) = (0, 0, 0);
    for seed in 0..3_000 {
        let (_, bytes) = families::bundle(seed);
        if verify(&bytes).number > 0 {
            continue;
        }
        let demands = demands(&bytes);
        assert_eq!(demands.levels().is_some(), demands.circle().is_none());
        let Some(Levels(list)) = demands.levels() else {
            circles += 1;
            assert_eq!(verify_ordered(&bytes, &[7, 6, 5, 4, 3, 2, 1, 0]).number, 25);
            continue;
        };
        found += 1;
        nested += u32::from(list != [0; 8]);
        assert_eq!(verify_ordered(&bytes, &list).number, 0, "seed {seed}");
        for class in (0..8).filter(|&class| list[class] > 0) {
            let mut lower = list;
            lower[class] -= 1;
            assert_eq!(verify_ordered(&bytes, &lower).number, 25, "seed {seed}");
        }
    }
    assert!(
        found > 100 && nested > 20 && circles > 20,
        "{found} {nested} {circles}"
    );
}
