//! What the program prints, what it says and how it ends.

use crate::basin::Report;
use crate::file::{load, word};
use crate::forcing::{Line, Reading};
use crate::words;
use std::fs::File;
use std::io::{self, ErrorKind, Read, Write};
use std::path::Path;

/// Bytes of a forcing line.
pub const LINE: usize = 16;
/// Steps that are read and printed at a time.
pub const STEPS: usize = 64;

/// How a run ends: what it says on standard error, and its status.
#[derive(Debug, PartialEq, Eq)]
pub struct Ended {
    pub said: Option<String>,
    pub status: u8,
}

impl Ended {
    /// All was read and printed.
    const ALL: Ended = Ended { said: None, status: 0 };

    /// A refused load, a part step at the end, or a file that could not be opened.
    fn not_all(said: String) -> Ended {
        Ended { said: Some(said), status: 1 }
    }

    /// A read failed on the way.
    fn failed(said: String) -> Ended {
        Ended { said: Some(said), status: 3 }
    }
}

/// Runs on a folder's basin.bin and forcing.bin; one that can't be opened or read counts as empty.
pub fn run_folder(folder: &Path, out: &mut impl Write) -> io::Result<Ended> {
    let basin = match read(&folder.join("basin.bin")) {
        Ok(basin) => basin,
        Err(ended) => {
            run(&[], io::empty(), out)?;
            return Ok(ended);
        }
    };
    match File::open(folder.join("forcing.bin")) {
        Ok(forcing) => run(&basin, forcing, out),
        Err(error) => Ok(match run(&basin, io::empty(), out)? {
            Ended::ALL => Ended::not_all(words::unopened("forcing.bin", &error)),
            refused => refused,
        }),
    }
}

fn read(path: &Path) -> Result<Vec<u8>, Ended> {
    let unopened = |error| Ended::not_all(words::unopened("basin.bin", &error));
    let unread = |error| Ended::failed(words::unread("basin.bin", 0, &error));
    let mut bytes = Vec::new();
    File::open(path).map_err(unopened)?.read_to_end(&mut bytes).map_err(unread)?;
    Ok(bytes)
}

/// Runs on the bytes of the two files.
pub fn run(basin: &[u8], mut forcing: impl Read, out: &mut impl Write) -> io::Result<Ended> {
    let loaded = load(basin);
    if loaded.number > 0 {
        writeln!(out, "load {} {}", loaded.number, loaded.place)?;
        return Ok(Ended::not_all(words::refused_load(basin, loaded.number, loaded.place)));
    }
    let mut basin = loaded.basin;
    let size = LINE * basin.n as usize;
    let mut bytes = vec![0; STEPS * size];
    let mut text = Vec::new();
    let mut number = 0;
    loop {
        let (got, error) = read_full(&mut forcing, &mut bytes);
        let (steps, tail) = bytes[..got].split_at(got - got % size);
        for step in steps.chunks_exact(size) {
            number += 1;
            match basin.advance(step.as_chunks().0.iter().map(line)) {
                Err((refusal, place)) => writeln!(text, "{number} refused {refusal} {place}")?,
                Ok(report) => put_report(number, &report, &mut text),
            }
        }
        let is_short = error.is_none() && !tail.is_empty();
        if is_short {
            writeln!(text, "short {}", tail.len())?;
        }
        out.write_all(&text)?;
        text.clear();
        if let Some(error) = error {
            return Ok(Ended::failed(words::unread("forcing.bin", number, &error)));
        }
        if is_short {
            let said = words::short(tail.len() as u64, size as u64, number + 1);
            return Ok(Ended::not_all(said));
        }
        if got < bytes.len() {
            return Ok(Ended::ALL);
        }
    }
}

/// Reads until the buffer is full or the input ends or fails; gives the count of bytes and why it failed.
fn read_full(input: &mut impl Read, buffer: &mut [u8]) -> (usize, Option<io::Error>) {
    let mut got = 0;
    while got < buffer.len() {
        match input.read(&mut buffer[got..]) {
            Ok(0) => break,
            Ok(more) => got += more,
            Err(error) if error.kind() == ErrorKind::Interrupted => {}
            Err(error) => return (got, Some(error)),
        }
    }
    (got, None)
}

/// A line: kind, rain bits, pan bits, temperature bits.
pub fn line(bytes: &[u8; LINE]) -> Line {
    let number = |place| f32::from_bits(word(bytes, place) as u32);
    let rain = match word(bytes, 0) {
        1 => Reading::Measured(number(1)),
        2 => Reading::Estimated(number(1)),
        _ => Reading::Missing,
    };
    Line { rain, pan: number(2), temperature: number(3) }
}

/// The text of an accepted step.
fn put_report(number: u64, r: &Report, text: &mut Vec<u8>) {
    put_number(number, text);
    text.extend(b" ok");
    for amount in [r.rain, r.evapotranspiration, r.outlet, r.content, r.estimated] {
        text.push(b' ');
        put_number(amount, text);
    }
    text.push(b'\n');
}

/// A number's digits. `write!` would take longer than a sub-basin's step does.
fn put_number(number: u64, text: &mut Vec<u8>) {
    let mut digits = [0; 20];
    let mut first = digits.len();
    let mut left = number;
    while left > 0 || first == digits.len() {
        first -= 1;
        digits[first] = b'0' + (left % 10) as u8;
        left /= 10;
    }
    text.extend_from_slice(&digits[first..]);
}

#[cfg(test)]
mod tests {
    use super::*;
    use crate::files::{bytes, case_a, case_b, line, ESTIMATED, MEASURED};

    fn printed(basin: &[u8], forcing: &[u8]) -> String {
        let mut out = Vec::new();
        run(basin, forcing, &mut out).unwrap();
        String::from_utf8(out).unwrap()
    }

    #[test]
    fn case_a_prints() {
        let files = case_a();
        let expected = "1 ok 135000 0 22678 112322 0\n2 refused 6 1\n3 ok 0 10000 2430 99892 0\n";
        assert_eq!(printed(&files.basin, &files.forcing), expected);
    }

    #[test]
    fn case_b_prints() {
        let files = case_b();
        let expected = "1 ok 368500 92090 0 960910 0\n2 refused 6 2\n\
                        3 ok 984500 130397 955 1814058 1\n4 ok 75750 15347 104119 1770342 1\n";
        assert_eq!(printed(&files.basin, &files.forcing), expected);
    }

    /// A line's fourth word. The snow of the third step melts in the fifth.
    #[test]
    fn temperatures_are_read() {
        let mut basin = case_a().basin;
        // F 10,000, threshold 500.
        basin[4 * 25..4 * 27].copy_from_slice(&bytes([10_000, 500]));
        let steps = [0.5, 60.062_5, 0.499, f32::NAN, 1.5];
        let steps = bytes(steps.into_iter().flat_map(|degrees| line(MEASURED, 1.0, 0.5, degrees)));
        let expected = "1 ok 1000 500 0 500 0\n2 refused 14 1\n3 ok 1000 500 0 1000 0\n\
                        4 refused 14 1\n5 ok 1000 500 0 1500 0\n";
        assert_eq!(printed(&basin, &steps), expected);
    }

    /// Hands out its bytes a few at a time, and then fails or ends.
    struct Trickle<'a>(&'a [u8], Option<ErrorKind>);

    impl Read for Trickle<'_> {
        fn read(&mut self, buffer: &mut [u8]) -> io::Result<usize> {
            if let (true, Some(kind)) = (self.0.is_empty(), self.1) {
                return Err(kind.into());
            }
            let few = buffer.len().min(7);
            self.0.read(&mut buffer[..few])
        }
    }

    #[test]
    fn more_steps_than_are_read_at_a_time() {
        let basin = case_a().basin;
        for count in [STEPS - 1, STEPS, STEPS + 1, 3 * STEPS] {
            for tail in [0, 5] {
                let mut steps = bytes((0..count).flat_map(|_| line(ESTIMATED, 1.0, 0.0, 0.0)));
                steps.resize(steps.len() + tail, 1);
                let printed = printed(&basin, &steps);
                let lines: Vec<&str> = printed.lines().collect();
                assert_eq!(lines.len(), count + usize::from(tail > 0));
                assert!(lines[count - 1].starts_with(&format!("{count} ok 1000 0 ")));
                assert!(tail == 0 || lines[count] == "short 5");
                let mut trickled = Vec::new();
                run(&basin, Trickle(&steps, None), &mut trickled).unwrap();
                assert_eq!(trickled, printed.as_bytes());
            }
        }
    }

    #[test]
    fn digits() {
        let tens = (0..20).map(|zeros| 10u64.pow(zeros));
        for number in tens.flat_map(|ten| [ten - 1, ten, ten + 1]).chain([u64::MAX]) {
            let mut text = Vec::new();
            put_number(number, &mut text);
            assert_eq!(text, number.to_string().as_bytes());
        }
    }

    #[test]
    fn statuses() {
        let basin = case_a().basin;
        let ended = |basin: &[u8], forcing: &[u8]| run(basin, forcing, &mut Vec::new()).unwrap();
        assert_eq!(ended(&basin, &case_a().forcing), Ended::ALL);
        assert_eq!(ended(&basin, &[1; 15]).status, 1);
        assert_eq!(ended(&basin[..108], &[]).status, 1);
    }

    #[test]
    fn a_read_that_fails() {
        let basin = case_a().basin;
        let mut steps = bytes(line(ESTIMATED, 1.0, 0.0, 0.0));
        steps.push(0);
        let mut out = Vec::new();
        let ended = run(&basin, Trickle(&steps, Some(ErrorKind::Other)), &mut out).unwrap();
        assert_eq!(out, b"1 ok 1000 0 0 1000 1\n");
        assert_eq!(ended.status, 3);
        let said = ended.said.unwrap();
        assert!(said.starts_with("forcing.bin: could not be read after step 1: "), "{said}");
    }

    #[test]
    fn ends_of_the_input() {
        let basin = case_a().basin;
        assert_eq!(printed(&basin, &[]), "");
        assert_eq!(printed(&basin, &[1; 15]), "short 15\n");
        let mut steps = bytes(line(ESTIMATED, 1.0, 0.0, 0.0));
        steps.push(0);
        assert_eq!(printed(&basin, &steps), "1 ok 1000 0 0 1000 1\nshort 1\n");
        assert_eq!(printed(&[], &steps), "load 1 0\n");
        assert_eq!(printed(&basin[..108], &steps), "load 3 0\n");
    }
}
