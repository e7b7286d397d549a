//! Whether a query, a table and a run are accepted, or where and why not, in an operator's words.

use fql::{Cause, Refusal, Totals};

use crate::explanation::{marks, Explanation};
use crate::faulty::{in_instance, too_long, LONGEST_RUN};
use crate::named::named;
use crate::refused::refused;

/// The refusal is what the program gives; its limit for a run is tried after the check.
pub fn explain(query: &[u8], table: &[u8], run: &[u8]) -> Explanation {
    if run.len() > LONGEST_RUN && fql::check(query, table).is_ok() {
        let refusal = Refusal { cause: Cause::Run, place: LONGEST_RUN as u64 };
        return Explanation { accepted: false, text: format!("{refusal}\n{}", too_long(run)) };
    }
    match fql::mark(query, table, run, &mut marks(run)) {
        Ok(totals) => Explanation { accepted: true, text: accepted(query, table, run, totals) },
        Err(refusal) => Explanation { accepted: false, text: refused(refusal, query, table, run) },
    }
}

/// The properties that the query names, the totals, and for each instance that fails its record at fault.
fn accepted(query: &[u8], table: &[u8], run: &[u8], totals: Totals) -> String {
    let mut out = format!("accepted\nnames {}\n", named(query, table).join(", "));
    out += &format!("{} included, {} excluded, {} failed\n", totals.included, totals.excluded, totals.failed);
    for (number, instance) in (1..).zip(fql::record::read(run).0) {
        if let Err(refusal) = fql::evaluate(query, table, instance.body) {
            let details = in_instance(table, instance.body, refusal.place as usize);
            out += &format!("instance {number}, at byte {} of the run: {refusal}\n{details}", instance.start);
        }
    }
    out
}
