//! Two queries made into one, which includes what both include.

use fql::AtFault;

use crate::refused::refused_query;

/// The query's text, or why there is none.
pub fn join(first: &[u8], second: &[u8], table: &[u8]) -> Result<String, String> {
    match fql::conjunction(first, second, table) {
        Ok(text) => Ok(String::from_utf8(text).expect("a text of two in UTF-8 is in UTF-8")),
        Err(refused) => Err(match refused.at_fault {
            AtFault::First => refused_query(refused.refusal, "first query", first, table),
            AtFault::Second => refused_query(refused.refusal, "second query", second, table),
            AtFault::Neither => format!("{}\n", refused.refusal),
        }),
    }
}
