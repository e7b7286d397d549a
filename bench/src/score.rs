//! Where the engine is ahead and where it is behind, over all rows of a run.

use std::collections::BTreeMap;

/// The ratios to each peer: how many times longer the engine takes, and in which row.
#[derive(Default)]
pub struct Score(BTreeMap<&'static str, Vec<(f64, String)>>);

impl Score {
    /// Notes a row and returns its ratio.
    pub fn add(&mut self, peer: &'static str, row: &str, engine: f64, other: f64) -> f64 {
        let ratio = engine / other;
        self.0.entry(peer).or_default().push((ratio, row.into()));
        ratio
    }

    pub fn print(&self) {
        println!("\nthe engine beside each peer, over the rows above: above 1 it is behind");
        println!("{:34}{:>6}{:>8}{:>8}{:>8}{:>8}  where", "peer", "rows", "behind", "mean", "best", "worst");
        for (peer, ratios) in &self.0 {
            let behind = ratios.iter().filter(|(ratio, _)| *ratio > 1.0).count();
            let mean = (ratios.iter().map(|(ratio, _)| ratio.ln()).sum::<f64>() / ratios.len() as f64).exp();
            let best = ratios.iter().map(|(ratio, _)| *ratio).fold(f64::INFINITY, f64::min);
            let (worst, row) = ratios.iter().max_by(|a, b| a.0.total_cmp(&b.0)).unwrap();
            println!("{peer:34}{:>6}{behind:>8}{mean:>8.2}{best:>8.2}{worst:>8.2}  {row}", ratios.len());
        }
    }
}

/// A peer's time and the ratio to it, or two dashes.
pub fn cells(peer: Option<(f64, f64)>) -> String {
    match peer {
        Some((time, ratio)) => format!("{time:>12.0}{ratio:>8.2}"),
        None => format!("{:>12}{:>8}", "-", "-"),
    }
}
