//! The ideals of a network by ascending mask, as many as asked for: docs/RULES.md, *Ideals*.

use super::masks::has;
use super::sheets::Sheet;

/// Up to so many operators all sets are tried; of more, the ideals are made from those of fewer operators.
const FEW: usize = 10;

impl Sheet {
    /// The first ideals, `most` or, if there are fewer, all.
    pub fn ideals(&self, most: usize) -> Vec<u64> {
        if self.operators.len() <= FEW {
            self.tried_ideals(most)
        } else {
            self.grown_ideals(most)
        }
    }

    /// By the definition: of all sets those that are ideals.
    pub fn tried_ideals(&self, most: usize) -> Vec<u64> {
        (0..1 << self.operators.len())
            .filter(|&mask| self.is_ideal(mask))
            .take(most)
            .collect()
    }

    /// Edges lead upward, so that an ideal with `next` as its highest operator is one of the operators below, and `next`.
    /// All that have it are above all that have not, and the list stays ascending.
    pub fn grown_ideals(&self, most: usize) -> Vec<u64> {
        let mut ideals = vec![0];
        for next in 0..self.operators.len() {
            let needed: Vec<usize> = self
                .edges
                .iter()
                .filter(|edge| edge.1 == next)
                .map(|edge| edge.0)
                .collect();
            let grown: Vec<u64> = ideals
                .iter()
                .filter(|&&ideal| needed.iter().all(|&operator| has(ideal, operator)))
                .map(|ideal| ideal | 1 << next)
                .collect();
            ideals.extend(grown);
            ideals.truncate(most);
        }
        ideals.truncate(most);
        ideals
    }

    fn is_ideal(&self, mask: u64) -> bool {
        self.edges
            .iter()
            .all(|&(from, to)| !has(mask, to) || has(mask, from))
    }
}
