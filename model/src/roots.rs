//! The printed table of roots.

use crate::curve::WHOLE;
use std::io::{self, Write};

/// Entry k, for k 0..1,023, is the greatest whole r with r × r ≤ k × 65,536.
fn table() -> Vec<u64> {
    (0..1_024).map(|k| (k * WHOLE).isqrt()).collect()
}

/// The longest line of a source file.
const WIDTH: usize = 100;

/// The table as a source file, in rows as `rt fmt` lays them out.
pub fn print(out: &mut impl Write) -> io::Result<()> {
    writeln!(
        out,
        "// Entry k is the greatest r with r * r <= k * 65,536. Written by `model roots`."
    )?;
    writeln!(out, "pub const ROOTS: [u32; 1024] = [")?;
    let mut row = String::from("   ");
    for root in table() {
        let entry = format!(" {root},");
        if row.len() + entry.len() > WIDTH {
            writeln!(out, "{row}")?;
            row = String::from("   ");
        }
        row += &entry;
    }
    writeln!(out, "{row}\n];")
}

#[cfg(test)]
mod tests {
    use super::*;

    #[test]
    fn each_entry_is_the_greatest() {
        let table = table();
        assert_eq!(table.len(), 1_024);
        for (k, &r) in (0..).zip(&table) {
            assert!(r * r <= k * WHOLE && k * WHOLE < (r + 1) * (r + 1), "entry {k}");
        }
    }
}
