//! What the program says on standard error, a line each.

use crate::file::word;
use crate::record::WORDS;
use std::io;

/// The words of a sub-basin and of a reach, as the basin file lists them.
#[rustfmt::skip]
const SUB_BASIN: [&str; WORDS] = [
    "area", "K", "UM", "LM", "DM", "C", "BN", "IM", "SM", "XN", "KI", "KG", "CI", "CG", "CS", "L", "REACH",
    "WU", "WL", "WD", "G", "VI", "VG", "F", "threshold", "SN",
];
const REACH: [&str; 3] = ["c0", "c1", "next"];

/// A refused load of a basin file.
pub fn refused_load(basin: &[u8], number: u64, place: u64) -> String {
    if number == 1 {
        return "basin.bin: has fewer than 8 bytes".into();
    }
    let (n, m) = (word(basin, 0), word(basin, 1));
    if number == 3 {
        let bytes = 4 * (2 + 26 * n + 3 * m);
        return format!(
            "basin.bin: does not have the {bytes} bytes that N = {n} and M = {m} ask for"
        );
    }
    format!("basin.bin: word {place} ({}) is outside its range", name(place as usize, n as usize))
}

/// What the word at a place of the basin file is.
fn name(place: usize, n: usize) -> String {
    match place {
        0 => return "N".into(),
        1 => return "M".into(),
        _ => {}
    }
    let place = place - 2;
    match place.checked_sub(WORDS * n) {
        None => format!("{} of sub-basin {}", SUB_BASIN[place % WORDS], place / WORDS + 1),
        Some(place) => format!("{} of reach {}", REACH[place % 3], place / 3 + 1),
    }
}

/// A part step at the end: so many of its bytes.
pub fn short(count: u64, size: u64, step: u64) -> String {
    format!("forcing.bin: ends inside step {step}, after {count} of its {size} bytes")
}

pub fn unopened(file: &str, error: &io::Error) -> String {
    format!("{file}: could not be opened: {}", reason(error))
}

/// A read that failed after so many steps.
pub fn unread(file: &str, steps: u64, error: &io::Error) -> String {
    let after = if steps > 0 { format!(" after step {steps}") } else { String::new() };
    format!("{file}: could not be read{after}: {}", reason(error))
}

/// The system's words, without the number that the library adds.
fn reason(error: &io::Error) -> String {
    let text = error.to_string();
    text.split(" (os error").next().unwrap_or_default().into()
}

#[cfg(test)]
mod tests {
    use super::*;
    use crate::files::bytes;

    #[test]
    fn places() {
        let basin = bytes([2, 3]);
        let said = |place| refused_load(&basin, 4, place);
        assert_eq!(said(5), "basin.bin: word 5 (LM of sub-basin 1) is outside its range");
        assert_eq!(said(25), "basin.bin: word 25 (F of sub-basin 1) is outside its range");
        assert_eq!(said(50), "basin.bin: word 50 (VG of sub-basin 2) is outside its range");
        assert_eq!(said(52), "basin.bin: word 52 (threshold of sub-basin 2) is outside its range");
        assert_eq!(said(53), "basin.bin: word 53 (SN of sub-basin 2) is outside its range");
        assert_eq!(said(54), "basin.bin: word 54 (c0 of reach 1) is outside its range");
        assert_eq!(said(62), "basin.bin: word 62 (next of reach 3) is outside its range");
        assert_eq!(refused_load(&basin, 2, 1), "basin.bin: word 1 (M) is outside its range");
    }

    #[test]
    fn lengths() {
        let said = "basin.bin: does not have the 112 bytes that N = 1 and M = 0 ask for";
        assert_eq!(refused_load(&bytes([1, 0]), 3, 0), said);
    }

    #[test]
    fn reasons() {
        let said = unread("forcing.bin", 340, &io::Error::from_raw_os_error(5));
        assert_eq!(said, "forcing.bin: could not be read after step 340: Input/output error");
    }
}
