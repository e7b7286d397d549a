//! How often a property of each kind came up on either side of a comparison, and with which verdicts.

use std::collections::BTreeMap;
use std::fmt;

use crate::check::find;
use crate::kind::{ARRAY, TYPES};
use crate::record::Table;
use crate::syntax::{Comparison, Side};

#[derive(Clone, Copy, Debug, Default)]
struct Count {
    comparisons: usize,
    /// Queries of this comparison alone, included and excluded.
    alone: [usize; 2],
}

#[derive(Default)]
pub struct Operands(BTreeMap<(Side, u16), Count>);

impl Operands {
    /// The properties of a comparison, and the verdict if it is alone in its query.
    pub fn add(&mut self, query: &[u8], table: &Table, c: &Comparison, included: Option<bool>) {
        for (side, path) in c.paths() {
            let (_, kind) = find(query, table, path).unwrap();
            let count = self.0.entry((side, kind)).or_default();
            count.comparisons += 1;
            if let Some(included) = included {
                count.alone[usize::from(!included)] += 1;
            }
        }
    }

    /// Each kind stands on each side at least so often, and alone in a query with each verdict a sixth as often.
    pub fn assert_at_least(&self, least: usize) {
        for kind in TYPES.iter().flat_map(|&plain| [plain, ARRAY | plain]) {
            for side in [Side::Left, Side::Right] {
                let count = self.0.get(&(side, kind)).copied().unwrap_or_default();
                let often = count.comparisons >= least && count.alone.iter().all(|&n| 6 * n >= least);
                assert!(often, "{kind:#06x} on this side: {side:?}, {count:?}");
            }
        }
    }
}

impl fmt::Display for Operands {
    fn fmt(&self, f: &mut fmt::Formatter) -> fmt::Result {
        self.0.iter().try_for_each(|((side, kind), count)| {
            write!(f, "\n{side:?} {kind:#06x}: {}, alone {:?}", count.comparisons, count.alone)
        })
    }
}
