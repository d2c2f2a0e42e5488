//! A folder's two files, basin.bin and forcing.bin, as they are made.

use crate::record::CASE_A;
use std::fs;
use std::io;
use std::path::Path;

pub const MEASURED: u32 = 1;
pub const ESTIMATED: u32 = 2;
pub const MISSING: u32 = 0;

/// A forcing line's four words: kind, rain bits, pan bits, temperature bits.
pub type LineWords = [u32; 4];

pub fn line(kind: u32, rain: f32, pan: f32, temperature: f32) -> LineWords {
    [kind, rain.to_bits(), pan.to_bits(), temperature.to_bits()]
}

/// Little-endian.
pub fn bytes(words: impl IntoIterator<Item = u32>) -> Vec<u8> {
    words.into_iter().flat_map(u32::to_le_bytes).collect()
}

pub struct Files {
    pub basin: Vec<u8>,
    pub forcing: Vec<u8>,
}

impl Files {
    pub fn of(basin: impl IntoIterator<Item = u32>, lines: &[LineWords]) -> Files {
        Files { basin: bytes(basin), forcing: bytes(lines.iter().flatten().copied()) }
    }

    /// Makes the folder where it is missing.
    pub fn write(&self, folder: &Path) -> io::Result<()> {
        fs::create_dir_all(folder)?;
        fs::write(folder.join("basin.bin"), &self.basin)?;
        fs::write(folder.join("forcing.bin"), &self.forcing)
    }
}

/// Case A: one sub-basin, no reach; rain 135 pan 0, a missing reading, rain 0 pan 10, all at 0 °C.
pub fn case_a() -> Files {
    let words = [1, 0].into_iter().chain(CASE_A).map(|word| word as u32);
    let steps = [(MEASURED, 135.0, 0.0), (MISSING, 0.0, 0.0), (MEASURED, 0.0, 10.0)]
        .map(|(kind, rain, pan)| line(kind, rain, pan, 0.0));
    Files::of(words, &steps)
}

/// Case B: two sub-basins with snow, the first above a reach, no two shares alike, estimated lines and a refused one.
pub fn case_b() -> Files {
    let words = [
        [2, 1].as_slice(),
        &[7, 52_429, 12_000, 80_000, 45_000, 13_107, 20, 6_554, 18_000, 26, 16_384, 11_469],
        &[36_045, 60_293, 29_491, 1, 1, 9_000, 1_000, 30_000, 2_500, 1_200, 3_400],
        &[4_500, 750, 26_000],
        &[3, 58_982, 15_000, 70_000, 50_000, 8_520, 22, 3_277, 25_000, 28, 9_830, 22_938],
        &[49_152, 63_570, 19_661, 2, 0, 5_000, 30_000, 20_000, 1_000, 700, 900],
        &[3_000, 1_250, 0],
        &[14_418, 32_768, 0],
    ]
    .concat();
    let steps = [
        [line(MEASURED, 1.0, 30.0, -3.5), line(MEASURED, 120.5, 3.0, 2.0625)],
        [line(MEASURED, 12.0, 1.0, 0.5), line(MISSING, 0.0, 0.0, 4.0)],
        [line(ESTIMATED, 140.0, 4.0, 6.25), line(MEASURED, 1.5, 40.0, -0.0625)],
        [line(MEASURED, 0.0, 2.5, 11.5), line(ESTIMATED, 25.25, 0.5, 3.125)],
    ];
    Files::of(words, steps.as_flattened())
}
