//! Wrong notions of the properties that a query names (02, Q-3): each leaves out some of its mentions.

use std::collections::BTreeSet;

use crate::named::{properties_of, Mention};
use crate::record::Table;
use crate::syntax::Side;

/// The properties of those mentions of a query that aren't left out.
pub type Notion = fn(&Table, &[Mention]) -> BTreeSet<usize>;

pub fn on_the_left(_: &Table, mentions: &[Mention]) -> BTreeSet<usize> {
    properties_of(mentions, |m| m.side == Side::Left)
}

pub fn in_the_first_comparison(_: &Table, mentions: &[Mention]) -> BTreeSet<usize> {
    properties_of(mentions, |m| m.comparison == 0)
}

pub fn in_the_last_comparison(_: &Table, mentions: &[Mention]) -> BTreeSet<usize> {
    let last = mentions.iter().map(|m| m.comparison).max();
    properties_of(mentions, |m| Some(m.comparison) == last)
}

pub fn without_the_class(_: &Table, mentions: &[Mention]) -> BTreeSet<usize> {
    properties_of(mentions, |m| m.names.len() == 1)
}

/// Letter by letter as the table spells it.
pub fn in_the_same_case(table: &Table, mentions: &[Mention]) -> BTreeSet<usize> {
    properties_of(mentions, |m| m.names.last() == Some(&&table.properties[m.property].name[..]))
}
