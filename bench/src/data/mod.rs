//! The classes, runs and filters that are measured: deterministic, and the same for every contestant.

mod filters;
mod others;
mod sample;

pub use filters::{filters, filters_of_temp, Filter};
pub use others::others;
pub use sample::table;

use reference::kind::{CLASS, INSTANCE};
use reference::record::write;

/// A table and a run of its instances.
pub struct Setting {
    pub table: Vec<u8>,
    pub run: Vec<u8>,
    pub instances: usize,
}

impl Setting {
    /// So many instances of a class, each with the records that its number makes.
    pub fn new(properties: &[(u16, &str)], instances: usize, records: impl Fn(u64) -> Vec<u8>) -> Setting {
        let class = write(CLASS, b"P");
        let table = properties.iter().fold(class, |out, (kind, name)| [out, write(*kind, name.as_bytes())].concat());
        let run = (0..instances).flat_map(|n| write(INSTANCE, &records(mixed(n)))).collect();
        Setting { table, run, instances }
    }

    /// The settings by name, each with as many instances as it is measured with.
    pub fn named(name: &str) -> Setting {
        match name {
            "small" => sample::setting(0, 2_000),
            "large" => sample::setting(122, 200),
            "late" => sample::late(200),
            other => panic!("{other} is none of small, large and late"),
        }
    }

    /// The sample class with so many further properties.
    pub fn sample(further: usize, instances: usize) -> Setting {
        sample::setting(further, instances)
    }

    pub fn marks(&self) -> Vec<u8> {
        vec![0; self.instances]
    }

    /// The first instance of the run.
    pub fn instance(&self) -> &[u8] {
        let length = usize::from(u16::from_le_bytes([self.run[0], self.run[1]]));
        &self.run[4..4 + length]
    }
}

/// A number without a pattern for each place in a run.
fn mixed(n: usize) -> u64 {
    (n as u64 + 1).wrapping_mul(0x9e37_79b9_7f4a_7c15) >> 32
}
