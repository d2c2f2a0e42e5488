//! `file_cases`: the load call.

use super::draft::{any, numbers, words_of, File, Spot};
use super::draw::{Checksum, Draw};
use std::io::{self, Write};

/// How a number is chosen from its range with two draws.
type Choice = fn((u64, u64), u64, u64) -> u64;

const LEAST: Choice = |(least, _), _, _| least;
const MOST: Choice = |(_, most), _, _| most;
const END: Choice = |(least, most), x, _| [least, most][(x % 2) as usize];
const ANY: Choice = any;

pub fn print(out: &mut impl Write) -> io::Result<()> {
    for (name, choice) in [("least", LEAST), ("most", MOST), ("ends", END), ("any", ANY)] {
        good(name, choice, out)?;
    }
    for (n, m) in [(1, 0), (2, 3), (32, 31)] {
        sizes(n, m, out)?;
    }
    counts(out)?;
    words(ANY, 2, 2, true, out)?;
    words(MOST, 2, 2, true, out)?;
    for choice in [LEAST, MOST, ANY] {
        words(choice, 32, 31, false, out)?;
    }
    shares(out)?;
    nexts(out)?;
    several(out)?;
    bytes(out)
}

/// A file with every word chosen within its range.
fn good_file(choice: Choice, n: u64, m: u64, draw: &mut Draw) -> File {
    File::drawn(n, m, draw, |file, at, x, y| match file.spot(at) {
        // 0, or own + 1..M.
        Spot::Reach(own, 2) => match choice((0, m - own), x, y) {
            0 => 0,
            further => own + further,
        },
        _ => choice(file.range(at), x, y),
    })
}

/// Below the range of a word, its least, its greatest, above, and the greatest word.
fn edges(file: &File, at: usize) -> [u64; 5] {
    let (least, greatest) = file.range(at);
    let greatest_word = u64::from(u32::MAX);
    let below = least.checked_sub(1).unwrap_or(greatest_word);
    [below, least, greatest, greatest + 1, greatest_word]
}

/// A series' checksum.
#[derive(Default)]
struct Loads(Checksum);

impl Loads {
    /// Folds a file's answer and prints its number and place.
    fn shown(&mut self, file: File, out: &mut impl Write) -> io::Result<()> {
        let (number, place) = self.fold(file);
        write!(out, " {number} {place}")
    }

    fn fold(&mut self, file: File) -> (u64, u64) {
        let given = file.load();
        self.0.fold(&[given.number, given.place]);
        self.0.fold(&numbers(&given.basin));
        (given.number, given.place)
    }

    fn end(&self, name: &str, n: u64, m: u64, out: &mut impl Write) -> io::Result<()> {
        writeln!(out, "{name} {n} {m} {}", self.0 .0)
    }
}

/// Every N and M; each file as it is, and shorter and longer by a word and by a byte.
fn good(name: &str, choice: Choice, out: &mut impl Write) -> io::Result<()> {
    let mut loads = Loads::default();
    let mut draw = Draw(1);
    for n in 1..=32 {
        for m in 0..=31 {
            let file = good_file(choice, n, m, &mut draw);
            let size = file.size;
            for size in [size, size - 4, size - 1, size + 1, size + 4] {
                loads.fold(file.sized(size));
            }
        }
        writeln!(out, "good {n} {}", loads.0 .0)?;
    }
    loads.end(name, 1, 0, out)
}

/// Every length up to five bytes beyond the file's own, or up to the buffer's.
fn sizes(n: u64, m: u64, out: &mut impl Write) -> io::Result<()> {
    let mut loads = Loads::default();
    let file = good_file(ANY, n, m, &mut Draw(1));
    for size in 0..=(file.size + 5).min(file.bytes.len()) {
        if size < 10 || size + 5 >= file.size {
            write!(out, "size {size}")?;
            loads.shown(file.sized(size), out)?;
            writeln!(out)?;
        } else {
            loads.fold(file.sized(size));
        }
    }
    loads.end("sizes", n, m, out)
}

/// N with M, with the length that they ask for or the longest, and with 8 bytes.
fn counts(out: &mut impl Write) -> io::Result<()> {
    let counts =
        [0, 1, 2, 31, 32, 33, 1 << 8, 32 << 8, 1 << 16, 1 << 24, 32 << 24, u64::from(u32::MAX)];
    let mut loads = Loads::default();
    let base = good_file(ANY, 32, 31, &mut Draw(1));
    for m in counts {
        for n in counts {
            let file = base.with(0, n).with(1, m);
            let inside = n <= 32 && m <= 31;
            write!(out, "counts {n} {m}")?;
            loads.shown(if inside { file.sized(4 * words_of(n, m)) } else { file }, out)?;
            loads.shown(file.sized(8), out)?;
            writeln!(out)?;
        }
    }
    loads.end("counts", 32, 31, out)
}

/// Every word at the edges of its range.
fn words(choice: Choice, n: u64, m: u64, shown: bool, out: &mut impl Write) -> io::Result<()> {
    let mut loads = Loads::default();
    let file = good_file(choice, n, m, &mut Draw(1));
    for at in 0..words_of(n, m) {
        let files = edges(&file, at).map(|number| file.with(at, number));
        if shown {
            write!(out, "word {at}")?;
            files.into_iter().try_for_each(|file| loads.shown(file, out))?;
            writeln!(out)?;
        } else {
            files.into_iter().for_each(|file| _ = loads.fold(file));
        }
    }
    loads.end("words", n, m, out)
}

/// c0 with c1, in the second reach.
fn shares(out: &mut impl Write) -> io::Result<()> {
    let greatest = u64::from(u32::MAX);
    let shares = [0, 1, 2, 32_768, 65_535, 65_536, 65_537, 1 << 31, greatest - 65_535, greatest];
    let mut loads = Loads::default();
    let file = good_file(ANY, 2, 3, &mut Draw(1));
    let at = words_of(2, 1);
    for c1 in shares {
        for c0 in shares {
            write!(out, "shares {c0} {c1}")?;
            loads.shown(file.with(at, c0).with(at + 1, c1), out)?;
            writeln!(out)?;
        }
    }
    loads.end("shares", 2, 3, out)
}

/// Every reach with every next.
fn nexts(out: &mut impl Write) -> io::Result<()> {
    let mut loads = Loads::default();
    let file = good_file(ANY, 1, 31, &mut Draw(1));
    for own in 1..=31 {
        write!(out, "next {own}")?;
        for next in 0..=32 {
            loads.shown(file.with(words_of(1, own) - 1, next), out)?;
        }
        writeln!(out)?;
    }
    loads.end("nexts", 1, 31, out)
}

/// A good file with N and M drawn too.
fn drawn(draw: &mut Draw) -> File {
    let n = 1 + draw.next() % 32;
    let m = draw.next() % 32;
    good_file(ANY, n, m, draw)
}

/// Three words outside their ranges.
fn several(out: &mut impl Write) -> io::Result<()> {
    let mut loads = Loads::default();
    let mut draw = Draw(1);
    for i in 0..2_000 {
        let mut file = drawn(&mut draw);
        let mut places = Vec::new();
        for _ in 0..3 {
            let at = 2 + draw.next() as usize % (file.size / 4 - 2);
            let [below, _, _, above, greatest] = edges(&file, at);
            let number = [below, above, greatest][draw.next() as usize % 3];
            file = file.with(at, number);
            places.push(at);
        }
        if i % 50 == 0 {
            write!(out, "several")?;
            places.iter().try_for_each(|at| write!(out, " {at}"))?;
            loads.shown(file, out)?;
            writeln!(out)?;
        } else {
            loads.fold(file);
        }
    }
    loads.end("several", 1, 0, out)
}

/// One byte changed, at most one past the end.
fn bytes(out: &mut impl Write) -> io::Result<()> {
    let mut loads = Loads::default();
    let mut draw = Draw(1);
    for i in 0..5_000 {
        let mut file = drawn(&mut draw);
        let at = draw.next() as usize % (file.size + 1);
        let byte = draw.next() % 256;
        file.bytes[at] = byte as u8;
        if i % 200 == 0 {
            write!(out, "byte {at} {byte}")?;
            loads.shown(file, out)?;
            writeln!(out)?;
        } else {
            loads.fold(file);
        }
    }
    loads.end("bytes", 1, 0, out)
}
