//! `store_series`: lists of inflows, each into one store.

use super::draw::{Checksum, Draw};
use crate::file::GREATEST_START;
use crate::store::{Released, Store, GREATEST_CONTENT, GREATEST_INFLOW};
use std::cmp::Reverse;
use std::io::{self, Write};

/// A store at the start, how the inflows go and how many they are.
struct List {
    course: &'static str,
    start: Store,
    count: u64,
}

pub fn print(out: &mut impl Write) -> io::Result<()> {
    lists().iter().try_for_each(|list| list.print(out))
}

/// Shares a and g.
const SHARES: [[u64; 2]; 14] = [
    [65_536, 65_536],
    [32_768, 32_768],
    [6_554, 6_554],
    [3_277, 3_277],
    [1_311, 1_311],
    [656, 656],
    [1, 1],
    [0, 1],
    [0, 656],
    [2_000, 6_554],
    [16_384, 49_152],
    [32_768, 65_536],
    [1, 65_536],
    [0, 65_536],
];

/// Shares for the greatest inflows, some above their limit.
const SHARES_OF_MUCH: [[u64; 2]; 8] = [
    [65_536, 65_536],
    [65_535, 65_535],
    [65_000, 65_536],
    [32_768, 32_768],
    [1, 1],
    [65_537, 65_537],
    [65_537, 0],
    [0, 65_537],
];

fn lists() -> Vec<List> {
    let list = |course, [a, g]: [u64; 2], content, count| {
        let start = Store { a, g, content };
        List { course, start, count }
    };
    let mut lists = vec![list("one", [32_768, 65_536], 0, 1), list("under", [1, 65_536], 0, 1)];
    lists.extend([1, 10, 100, 1_000, 3_000].map(|count| list("steady", [656; 2], 2_027, count)));
    for shares in SHARES {
        for content in [0, 2_027, GREATEST_START] {
            let courses = ["none", "few", "small", "mixed", "low", "high"];
            lists.extend(courses.map(|course| list(course, shares, content, 1_000)));
        }
    }
    let mut draw = Draw(1);
    for _ in 0..100 {
        let [x, y, content] = [0; 3].map(|_| draw.next());
        let g = 1 + x % 65_536;
        let a = y % (g + 1);
        let courses = ["few", "mixed", "low", "high"];
        lists.extend(courses.map(|course| list(course, [a, g], content, 300)));
    }
    for shares in SHARES_OF_MUCH {
        lists.extend([0, GREATEST_CONTENT].map(|content| list("much", shares, content, 20)));
    }
    lists
}

impl List {
    /// Shows each accepted inflow and what it released; gives the number of the refusal that ends the list, or 0.
    fn walk(&self, mut show: impl FnMut(u64, &Released)) -> u64 {
        let mut store = self.start;
        let mut draw = Draw(1);
        for _ in 0..self.count {
            let inflow = inflow(self.course, store, &mut draw);
            let released = store.take(inflow);
            if released.number > 0 {
                return released.number;
            }
            store = released.store;
            show(inflow, &released);
        }
        0
    }

    fn print(&self, out: &mut impl Write) -> io::Result<()> {
        let Store { a, g, mut content } = self.start;
        write!(out, "{} {a} {g} {content}", self.course)?;
        let mut taken = 0;
        let mut h = Checksum::default();
        let number = self.walk(|_, released| {
            taken += 1;
            content = released.store.content;
            h.fold(&[content, released.outflow]);
        });
        writeln!(out, " {taken} {number} {content} {}", h.0)
    }
}

/// The next inflow into a store.
fn inflow(course: &str, store: Store, draw: &mut Draw) -> u64 {
    match course {
        "one" => 1,
        "under" => 32_767,
        "steady" => 21,
        "none" => 0,
        "few" => draw.next() % 8,
        "small" => draw.next() % 1_000,
        "mixed" => draw.next() >> (draw.next() % 31),
        "much" => GREATEST_INFLOW - draw.next() % 1_000,
        "low" => (0..256).min_by_key(|&inflow| left_over(store, inflow)).unwrap(),
        "high" => (0..256).min_by_key(|&inflow| Reverse(left_over(store, inflow))).unwrap(),
        _ => unreachable!("no course is called {course}"),
    }
}

/// What the outflow's division leaves over.
fn left_over(store: Store, inflow: u64) -> u64 {
    (store.a * inflow + store.g * (store.content % 65_536) + 32_768) % 65_536
}

#[cfg(test)]
mod tests {
    use super::*;
    use crate::stray::{Stray, Unrounded, BOUND};
    use std::cmp::Ordering::{Greater, Less};

    impl List {
        /// Shows how far the store has strayed after each accepted inflow.
        fn stray(&self, mut show: impl FnMut(&Stray)) -> u64 {
            let mut unrounded = Unrounded::new(self.start);
            self.walk(|inflow, released| {
                unrounded.take(inflow);
                show(&unrounded.stray(released.store.content));
            })
        }
    }

    /// In all lists but those of `much` 0 ≤ a ≤ g, g is 1..65,536 and no inflow is refused.
    #[test]
    fn no_list_strays_beyond_the_bound() {
        let [mut count, mut inflows] = [0; 2];
        for list in lists() {
            let (course, store) = (list.course, list.start);
            let number = list.stray(|stray| {
                let most = if stray.side == Greater { BOUND - 1 } else { BOUND };
                assert!(stray.against(most).is_le(), "{course} {store:?} {}", stray.about());
                inflows += 1;
            });
            if course != "much" {
                assert!(number == 0 && store.a <= store.g && (1..=65_536).contains(&store.g));
            }
            count += 1;
        }
        assert_eq!((count, inflows), (675, 376_237));
    }

    /// Above and below, in nm: ground stores with CG 0.5, 0.9, 0.95, 0.98, 0.99 and the greatest.
    #[test]
    fn ground_stores_stray_so_far() {
        let lists = lists();
        for (g, expected) in [
            (32_768, [0, 1_000]),
            (6_554, [4_541, 4_999]),
            (3_277, [9_566, 9_999]),
            (1_311, [24_993, 24_992]),
            (656, [49_925, 49_951]),
            (1, [488_501, 13_524]),
        ] {
            let mut most = [0.0f64; 2];
            for list in lists.iter().filter(|list| [list.start.a, list.start.g] == [g; 2]) {
                list.stray(|stray| {
                    for (most, side) in most.iter_mut().zip([Greater, Less]) {
                        if stray.side == side {
                            *most = most.max(stray.about());
                        }
                    }
                });
            }
            let most = most.map(|times| (times / g as f64 * 1_000.0).round() as u64);
            assert_eq!(most, expected, "{g}");
        }
    }

    /// Worked out by hand: draws 48,271 and 182,605,794; what the division leaves is 32,771, 49,155, 3, 16,387, again.
    #[test]
    fn first_inflows() {
        let store = Store { a: 16_384, g: 1, content: 65_536 + 3 };
        for (course, expected) in [
            ("one", 1),
            ("under", 32_767),
            ("steady", 21),
            ("none", 0),
            ("few", 7),
            ("small", 271),
            ("mixed", 1),
            ("much", (1 << 62) - 271),
            ("low", 2),
            ("high", 1),
        ] {
            assert_eq!(inflow(course, store, &mut Draw(1)), expected, "{course}");
        }
    }

    /// Worked out by hand: lines at the ends, the first and the last drawn store, and what is taken of `much`.
    #[test]
    fn lines() {
        let mut out = Vec::new();
        print(&mut out).unwrap();
        let out = String::from_utf8(out).unwrap();
        assert!(
            out.starts_with("one 32768 65536 0 1 0 0 1\nunder 1 65536 0 1 0 32767 2149482433\n")
        );
        for store in ["37308 48272 1291394886", "31204 58401 1450405765"] {
            assert!(out.contains(&format!("\nfew {store} 300 0 ")), "{store}");
        }
        assert!(out.ends_with("\nmuch 0 65537 72057594037927936 0 10 72057594037927936 0\n"));
        let much = out.lines().filter_map(|line| line.strip_prefix("much "));
        let ends = much.map(|line| line.split(' ').skip(3).take(2).collect::<Vec<_>>().join(" "));
        let expected = ["20 0", "20 0", "20 0", "1 10", "1 10", "0 10", "0 10", "0 10"];
        assert!(ends.eq(expected.into_iter().flat_map(|end| [end; 2])));
    }
}
