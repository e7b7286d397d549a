//! What an operator is told of a call on a run, and the marks for such a call.

/// What is said, and whether the call is accepted: its query, table and run, and a watch's window and need.
pub struct Explanation {
    pub accepted: bool,
    pub text: String,
}

/// Marks enough: a record has at least four bytes.
pub fn marks(run: &[u8]) -> Vec<u8> {
    vec![0; run.len() / 4]
}
