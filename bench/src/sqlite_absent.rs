//! What stands in for SQLite where it is not installed.

use crate::data::Setting;

pub struct Rows;

pub struct Select;

pub fn version() -> Option<String> {
    None
}

impl Rows {
    pub fn new(_: &Setting) -> Rows {
        Rows
    }

    pub fn insert(&self, _: &[&[u8]]) {}

    pub fn clear(&self) -> u64 {
        0
    }

    pub fn select(&self, _: &str) -> Option<Select> {
        None
    }
}

impl Select {
    pub fn mark(&self, _: &mut [u8]) -> u64 {
        0
    }
}
