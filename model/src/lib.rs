//! A second model of the Xinanjiang water account, written from its definition alone.

pub mod basin;
pub mod bench;
pub mod chance;
pub mod compare;
pub mod curve;
pub mod expect;
pub mod file;
pub mod files;
pub mod forcing;
pub mod program;
pub mod rains;
pub mod random;
pub mod record;
pub mod roots;
pub mod sample;
pub mod store;
pub mod stray;
pub mod subbasin;
pub mod week;
pub mod window;
pub mod words;
