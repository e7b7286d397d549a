//! Which comparison follows which: AND binds before OR, in a group and between groups, and what can't change the
//! verdict is skipped.

use crate::syntax::Join;

/// The verdict after which the next comparison is judged, and where the other verdict leads.
#[derive(Clone, Copy)]
pub struct Way {
    pub goes_on: bool,
    pub otherwise: u8,
}

/// Ends that are no comparison's number.
pub const INCLUDED: u8 = 64;
pub const EXCLUDED: u8 = 65;

/// The ways of a query's comparisons, worked out from the last to the first.
pub fn ways(joins: &[Join]) -> Vec<Way> {
    let (mut term_fails, mut group_holds, mut part_fails) = (EXCLUDED, INCLUDED, EXCLUDED);
    let mut ways = Vec::with_capacity(joins.len());
    for (number, join) in joins.iter().enumerate().rev() {
        let next = number as u8 + 1;
        let way = match join {
            Join::Last => Way { goes_on: false, otherwise: INCLUDED },
            Join::And => Way { goes_on: true, otherwise: part_fails },
            Join::Or => {
                part_fails = next;
                Way { goes_on: false, otherwise: group_holds }
            }
            Join::GroupAnd => {
                (group_holds, part_fails) = (next, term_fails);
                Way { goes_on: true, otherwise: term_fails }
            }
            Join::GroupOr => {
                (term_fails, group_holds, part_fails) = (next, INCLUDED, next);
                Way { goes_on: false, otherwise: INCLUDED }
            }
        };
        ways.push(way);
    }
    ways.reverse();
    ways
}
