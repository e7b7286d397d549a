//! How the queries of pairs name properties.

use super::Pair;
use crate::named::{mentions, Mention};
use crate::record::Table;
use crate::syntax::Side;

/// Queries, each counted wherever it fits.
#[derive(Clone, Debug, Default)]
pub struct Naming {
    /// That name all properties of the table, and that leave some unnamed.
    pub all: usize,
    pub some: usize,
    pub on_the_right: usize,
    /// That name one property on the left and on the right.
    pub on_both_sides: usize,
    /// That spell one property in two ways.
    pub in_two_spellings: usize,
}

impl Naming {
    pub fn add(&mut self, pair: &Pair) {
        let properties = Table::read(&pair.table).unwrap().properties.len();
        let mentions = mentions(&pair.query, &pair.table);
        self.all += usize::from(pair.named.len() == properties);
        self.some += usize::from(pair.named.len() < properties);
        self.on_the_right += usize::from(mentions.iter().any(|m| m.side == Side::Right));
        self.on_both_sides += usize::from(has_two(&mentions, |a, b| a.side != b.side));
        self.in_two_spellings += usize::from(has_two(&mentions, |a, b| a.names != b.names));
    }
}

/// Whether two mentions of one property differ in this way.
fn has_two(mentions: &[Mention], differ: impl Fn(&Mention, &Mention) -> bool) -> bool {
    mentions.iter().any(|a| mentions.iter().any(|b| a.property == b.property && differ(a, b)))
}
