//! How often something has to come up, so that a test can't pass by trying nothing.

/// What, how often it came up, and how often it has to.
pub type Often<'a> = (&'a str, usize, usize);

pub fn assert_often(counts: &[Often]) {
    for (what, count, least) in counts {
        assert!(count >= least, "only {count} times: {what}");
    }
}
