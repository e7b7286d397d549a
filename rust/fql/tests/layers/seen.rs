//! How often each sort of case came up, so that a test can't pass by trying nothing.

use std::collections::BTreeMap;

#[derive(Default)]
pub struct Seen(BTreeMap<&'static str, usize>);

impl Seen {
    pub fn add(&mut self, sort: &'static str) {
        self.add_many(sort, 1);
    }

    pub fn add_many(&mut self, sort: &'static str, times: usize) {
        *self.0.entry(sort).or_default() += times;
    }

    /// Each of these sorts, and no other, came up at least so often.
    pub fn assert_at_least(&self, least: &[(&'static str, usize)]) {
        println!("{:?}", self.0);
        for (sort, count) in &self.0 {
            assert!(least.iter().any(|(asked, _)| asked == sort), "{count} times {sort}, which is not asked for");
        }
        for (sort, least) in least {
            let count = self.0.get(sort).copied().unwrap_or(0);
            assert!(count >= *least, "only {count} times {sort}");
        }
    }
}
