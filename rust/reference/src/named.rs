//! The properties that a query names (02, Q-3): those of all its comparisons, on either side, skipped ones included.

use std::collections::BTreeSet;

use crate::check::find;
use crate::record::Table;
use crate::syntax::{parse, Side};

/// A path of the text that names a property.
#[derive(Clone, Debug, PartialEq, Eq)]
pub struct Mention<'a> {
    /// The number of the comparison, from 0 in the order of the text.
    pub comparison: usize,
    pub side: Side,
    /// The class, if it is written, and the property, as the query spells them.
    pub names: Vec<&'a [u8]>,
    /// The number of the property, from 0 in the order of the table.
    pub property: usize,
}

/// The mentions in the order of the text. A path that is refused with 20 is no mention, and there are none in a query
/// that isn't read or under a table with a fault.
pub fn mentions<'a>(query: &'a [u8], table: &[u8]) -> Vec<Mention<'a>> {
    let (Ok(table), Ok(comparisons)) = (Table::read(table), parse(query)) else { return Vec::new() };
    let mut out = Vec::new();
    for (comparison, (c, _)) in comparisons.iter().enumerate() {
        for (side, path) in c.paths() {
            let Some((property, _)) = find(query, &table, path) else { continue };
            let names = path.names.iter().map(|&(start, end)| &query[start..end]).collect();
            out.push(Mention { comparison, side, names, property });
        }
    }
    out
}

/// The numbers of the properties that a query names.
pub fn named_properties(query: &[u8], table: &[u8]) -> BTreeSet<usize> {
    properties_of(&mentions(query, table), |_| true)
}

/// The properties of those mentions that count.
pub fn properties_of(mentions: &[Mention], counts: impl Fn(&Mention) -> bool) -> BTreeSet<usize> {
    mentions.iter().filter(|mention| counts(mention)).map(|mention| mention.property).collect()
}
