//! The characters that a pattern tells apart.

use crate::pattern::Pattern;

/// The characters that no symbol tells apart, and which symbols stand for them.
pub struct Classes {
    /// Where each class of characters beyond ASCII starts, but for the first.
    starts: Vec<u32>,
    pub of_ascii: [u64; 128],
    pub beyond: Vec<u64>,
}

impl Classes {
    pub fn new(pattern: &Pattern) -> Classes {
        let ends = pattern.spans.iter().flat_map(|span| [span.low, span.high + 1]);
        let mut starts: Vec<u32> = ends.filter(|&start| start > 0x80).collect();
        starts.sort_unstable();
        starts.dedup();
        let beyond = vec![pattern.negated; starts.len() + 1];
        let mut classes = Classes { starts, of_ascii: [pattern.negated; 128], beyond };
        for span in &pattern.spans {
            let reversed = |masks: &mut [u64]| {
                for mask in masks {
                    *mask = if pattern.negated & span.symbol == 0 { *mask | span.symbol } else { *mask & !span.symbol };
                }
            };
            if span.low < 0x80 {
                reversed(&mut classes.of_ascii[span.low as usize..=span.high.min(0x7f) as usize]);
            }
            if span.high >= 0x80 {
                let (low, high) = (classes.number(span.low.max(0x80)), classes.number(span.high));
                reversed(&mut classes.beyond[low..=high]);
            }
        }
        classes
    }

    /// The class of a character beyond ASCII.
    #[inline(always)]
    pub fn number(&self, character: u32) -> usize {
        self.starts.partition_point(|&start| start <= character)
    }

    #[inline(always)]
    pub fn symbols(&self, character: u32) -> u64 {
        match self.of_ascii.get(character as usize) {
            Some(&symbols) => symbols,
            None => self.beyond[self.number(character)],
        }
    }
}
