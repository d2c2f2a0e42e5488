//! `window_cases`: windows made and filled, and records that were tampered with.

use super::draw::{Checksum, Draw};
use crate::window::{Answer, Kept, Record, Window, PLACES};
use std::io::{self, Write};

/// What windows are made for, good and bad.
const MADE: [u64; 13] =
    [0, 1, 2, 3, 63, 64, 65, 66, 1_000, 1 << 32, (1 << 32) + 1, 1 << 63, u64::MAX];

pub fn print(out: &mut impl Write) -> io::Result<()> {
    for n in MADE {
        arrivals(n, &[5, 0, u64::MAX], out)?;
    }
    for n in 1..=3 {
        arrivals(n, &[4, 4, 2, 5, 1, 1, 3, 0, 0, 0, 0, 7], out)?;
    }
    series(out)?;
    lists(out)?;
    records(out)?;
    damaged(out)
}

/// The numbers of a record: n, count, then volume and age of each place.
const NUMBERS: usize = 2 + 2 * PLACES;

fn numbers(record: &Record) -> [u64; NUMBERS] {
    let mut numbers = [0; NUMBERS];
    numbers[..2].copy_from_slice(&[record.n, record.count]);
    for (pair, kept) in numbers[2..].chunks_exact_mut(2).zip(&record.kept) {
        pair.copy_from_slice(&[kept.volume, kept.age]);
    }
    numbers
}

fn with(mut record: Record, at: usize, number: u64) -> Record {
    match at {
        0 => record.n = number,
        1 => record.count = number,
        _ if at % 2 == 0 => record.kept[at / 2 - 1].volume = number,
        _ => record.kept[at / 2 - 1].age = number,
    }
    record
}

fn fold(h: &mut Checksum, answer: Answer, record: &Record) {
    h.fold(&[answer.number, answer.place, answer.highest]);
    h.fold(&numbers(record));
}

/// n, count and the places in use, to end a line.
fn row(record: &Record, out: &mut impl Write) -> io::Result<()> {
    let in_use = record.count.min(PLACES as u64) as usize;
    let shown = &numbers(record)[..2 + 2 * in_use];
    shown.iter().try_for_each(|number| write!(out, " {number}"))?;
    writeln!(out)
}

fn told(answer: Answer, window: &Window, out: &mut impl Write) -> io::Result<()> {
    write!(out, " {} {} {}", answer.number, answer.place, answer.highest)?;
    row(&window.record(), out)
}

/// A window as made and after each volume.
fn arrivals(n: u64, volumes: &[u64], out: &mut impl Write) -> io::Result<()> {
    let mut window = Window::new(n);
    write!(out, "make {n}")?;
    told(window.answer(), &window, out)?;
    for &volume in volumes {
        let answer = window.arrive(volume);
        write!(out, "arrive {volume}")?;
        told(answer, &window, out)?;
    }
    Ok(())
}

fn filled(n: u64, volumes: Vec<u64>) -> Window {
    let mut window = Window::new(n);
    for volume in volumes {
        window.arrive(volume);
    }
    window
}

const KINDS: [&str; 11] = [
    "rising", "falling", "equal", "zero", "pairs", "saw", "few", "many", "large", "ends", "storms",
];

/// The first volumes of a kind.
fn volumes(kind: &str, count: u64) -> Vec<u64> {
    let mut draw = Draw(1);
    let mut last = 0;
    let each = (0..count).map(|k| {
        last = volume(kind, k, last, &mut draw);
        last
    });
    each.collect()
}

/// The volume after k others.
fn volume(kind: &str, k: u64, last: u64, draw: &mut Draw) -> u64 {
    match kind {
        "rising" => 1_000 + k,
        "falling" => 1_000 - k,
        "equal" => 7,
        "zero" => 0,
        "pairs" => 1_000 - k / 2,
        "saw" => 37 * k % 101,
        "few" => draw.next() % 4,
        "many" => draw.next(),
        "large" => u64::MAX - draw.next() % 1_000,
        "ends" => draw.next() % 2 * u64::MAX,
        _ => match draw.next() {
            x if x % 20 == 0 => 1_000_000 + x % 1_000,
            _ => last * 9 / 10,
        },
    }
}

fn series(out: &mut impl Write) -> io::Result<()> {
    for kind in KINDS {
        for n in [1, 2, 3, 10, 63, 64] {
            let mut window = Window::new(n);
            let mut h = Checksum::default();
            for volume in volumes(kind, 300) {
                let answer = window.arrive(volume);
                fold(&mut h, answer, &window.record());
            }
            write!(out, "series {kind} {n} {} {}", h.0, window.answer().highest)?;
            row(&window.record(), out)?;
        }
    }
    Ok(())
}

/// The last digits of a number in base 3, the most significant first.
fn digits(code: u64, count: u32) -> Vec<u64> {
    (0..count).rev().map(|place| code / 3u64.pow(place) % 3).collect()
}

/// Every list of up to six volumes below 3.
fn lists(out: &mut impl Write) -> io::Result<()> {
    for n in 1..=4 {
        let mut h = Checksum::default();
        for length in 1..=6 {
            for code in 0..3u64.pow(length) {
                let window = filled(n, digits(code, length));
                fold(&mut h, window.answer(), &window.record());
            }
        }
        writeln!(out, "lists {n} {}", h.0)?;
    }
    Ok(())
}

/// A volume arrives at each of many records: how many took and refused it, and the checksum, to end a line.
fn tally(
    records: impl Iterator<Item = Record>,
    volume: u64,
    out: &mut impl Write,
) -> io::Result<()> {
    let (mut accepted, mut refused) = (0, 0);
    let mut h = Checksum::default();
    for record in records {
        let (answer, after) = record.arrive(volume);
        match answer.number {
            0 => accepted += 1,
            _ => refused += 1,
        }
        fold(&mut h, answer, &after);
    }
    writeln!(out, " {accepted} {refused} {}", h.0)
}

/// Every record with small numbers in its first three places.
fn records(out: &mut impl Write) -> io::Result<()> {
    for n in 0..=3 {
        for count in 0..=3 {
            let empty = Record { count, ..Window::new(n).record() };
            let all = (0..3u64.pow(6)).map(|code| {
                let numbers = (2..).zip(digits(code, 6));
                numbers.fold(empty, |record, (at, number)| with(record, at, number))
            });
            write!(out, "records {n} {count}")?;
            tally(all, 1, out)?;
        }
    }
    Ok(())
}

fn damaged(out: &mut impl Write) -> io::Result<()> {
    for (name, n, volumes) in [
        ("one", 1, vec![5]),
        ("two", 2, vec![5, 3]),
        ("none", 5, vec![]),
        ("zero", 64, vec![0]),
        ("full", 64, volumes("falling", 300)),
        ("last", 63, volumes("falling", 63)),
        ("part", 64, volumes("falling", 10)),
        ("gaps", 64, volumes("saw", 40)),
        ("few", 10, volumes("few", 30)),
        ("top", 3, vec![u64::MAX, u64::MAX - 1]),
    ] {
        let record = filled(n, volumes).record();
        changed(name, record, out)?;
        write!(out, "damaged {name} swapped")?;
        tally(swapped(record), 4, out)?;
        write!(out, "damaged {name} cut")?;
        tally((0..=PLACES).map(|count| cut(record, count)), 4, out)?;
        write!(out, "damaged {name} aged")?;
        tally((1..=3).map(|by| aged(record, by)), 4, out)?;
    }
    Ok(())
}

/// One number changed, to each of its values.
fn changed(name: &str, record: Record, out: &mut impl Write) -> io::Result<()> {
    let numbers = numbers(&record);
    let kinds = [("n", 0, 1), ("count", 1, 2), ("volumes", 2, NUMBERS), ("ages", 3, NUMBERS)];
    for (kind, first, end) in kinds {
        let changed = (first..end).step_by(2).flat_map(|at| {
            let values = values(&numbers, at).into_iter();
            values.map(move |value| with(record, at, value))
        });
        write!(out, "damaged {name} {kind}")?;
        tally(changed, 4, out)?;
    }
    Ok(())
}

/// What a number is changed to: of a volume or an age also that of the place before and of the next.
fn values(numbers: &[u64; NUMBERS], at: usize) -> Vec<u64> {
    let [less, more] = [numbers[at].wrapping_sub(1), numbers[at].wrapping_add(1)];
    let mut values = vec![less, more, 0, 1, 2, 62, 63, 64, 65, u64::MAX];
    if at >= 4 {
        values.push(numbers[at - 2]);
    }
    if at >= 2 {
        values.extend(numbers.get(at + 2));
    }
    values
}

/// Two places exchanged, each with each.
fn swapped(record: Record) -> impl Iterator<Item = Record> {
    let pairs = (0..PLACES).flat_map(|i| (i + 1..PLACES).map(move |j| (i, j)));
    pairs.map(move |(i, j)| {
        let mut swapped = record;
        swapped.kept.swap(i, j);
        swapped
    })
}

/// With another count, and zeros from there on.
fn cut(record: Record, count: usize) -> Record {
    let mut cut = Record { count: count as u64, ..record };
    cut.kept[count..].fill(Kept::default());
    cut
}

/// As if more volumes had come.
fn aged(mut record: Record, by: u64) -> Record {
    record.kept[..record.count as usize].iter_mut().for_each(|kept| kept.age += by);
    record
}

#[cfg(test)]
mod tests {
    use super::*;

    fn printed() -> String {
        let mut out = Vec::new();
        print(&mut out).unwrap();
        String::from_utf8(out).unwrap()
    }

    /// Worked out by hand: what series end with, where n is 3 or 10.
    #[test]
    fn ends_of_series() {
        let printed = printed();
        for (series, highest_and_row) in [
            ("rising 10", "1299 10 1 1299 0"),
            ("falling 3", "703 3 3 703 2 702 1 701 0"),
            ("equal 10", "7 10 1 7 0"),
            ("zero 10", "0 10 1 0 0"),
            ("pairs 10", "855 10 5 855 8 854 6 853 4 852 2 851 0"),
        ] {
            let begin = format!("series {series} ");
            let line = printed.lines().find(|line| line.starts_with(&begin)).unwrap();
            assert!(line.ends_with(&format!(" {highest_and_row}")), "{line}");
        }
    }

    /// Worked out by hand: how many records are accepted and refused.
    #[test]
    fn records_accepted_and_refused() {
        let printed = printed();
        for begin in [
            // With one place the volumes 0, 1, 2; with two a pair that falls, for 3 of either age; with three 2, 1, 0.
            "records 0 0 0 729 ",
            "records 0 1 0 729 ",
            "records 1 0 1 728 ",
            "records 1 1 3 726 ",
            "records 1 2 0 729 ",
            "records 2 1 3 726 ",
            "records 2 2 3 726 ",
            "records 2 3 0 729 ",
            "records 3 0 1 728 ",
            "records 3 1 3 726 ",
            "records 3 2 6 723 ",
            "records 3 3 1 728 ",
            "damaged one n 6 4 ",
            "damaged none n 7 3 ",
            "damaged full n 1 9 ",
            "damaged last n 3 7 ",
            "damaged part n 4 6 ",
            "damaged top n 6 4 ",
            "damaged one count 1 9 ",
            "damaged none count 3 7 ",
            // Any first volume but no other: 11, then two, 61 times three, and two that change nothing.
            "damaged one volumes 198 568 ",
            "damaged zero swapped 2016 0 ",
            "damaged full swapped 0 2016 ",
            "damaged one swapped 1953 63 ",
            "damaged two cut 2 63 ",
            "damaged none cut 2 63 ",
            "damaged full cut 2 63 ",
            "damaged none aged 3 0 ",
            "damaged one aged 0 3 ",
        ] {
            let met = printed.lines().filter(|line| line.starts_with(begin)).count();
            assert_eq!(met, 1, "{begin}");
        }
    }
}
