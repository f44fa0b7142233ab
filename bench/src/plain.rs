//! The straightforward implementation: for each pair of ideals the five sums over all operators, and then cell by cell with both kinds.

use crate::sheets::{Network, Operator};
use crate::tables::{Choice, Found, NONE, Stage, Tables};
use std::arch::asm;

/// A network with the masks that a pass needs, and counts of devices. It is made before anything is measured.
pub struct Sheet {
    operators: Vec<Operator>,
    successors: Vec<u64>,
    predecessors: Vec<u64>,
    k: usize,
    l: usize,
}

/// The five sums of a set of operators as a stage.
struct Sums {
    acc: u32,
    cpu: u32,
    size: u32,
    incoming: u32,
    outgoing: u32,
}

impl Sheet {
    pub fn new(network: &Network, k: u8, l: u8) -> Sheet {
        let count = network.operators.len();
        let mut successors = vec![0; count];
        let mut predecessors = vec![0; count];
        for (from, to) in &network.edges {
            successors[*from as usize] |= 1 << to;
            predecessors[*to as usize] |= 1 << from;
        }
        Sheet {
            operators: network.operators.clone(),
            successors,
            predecessors,
            k: k.into(),
            l: l.into(),
        }
    }

    /// Lists the ideals by ascending mask, and answers how many there are.
    fn list(&self, ideals: &mut [u64]) -> Option<usize> {
        let most = ideals.len().min(4096);
        *ideals[..most].first_mut()? = 0;
        let mut count = 1;
        for v in 0..self.operators.len() {
            for j in 0..count {
                if self.predecessors[v] & !ideals[j] == 0 {
                    *ideals[..most].get_mut(count)? = ideals[j] | 1 << v;
                    count += 1;
                }
            }
        }
        Some(count)
    }

    fn sums(&self, mask: u64) -> Sums {
        let mut sums = Sums {
            acc: 0,
            cpu: 0,
            size: 0,
            incoming: 0,
            outgoing: 0,
        };
        for (v, row) in self.operators.iter().enumerate() {
            let successors = self.successors[v];
            if mask >> v & 1 == 1 {
                sums.acc += row.acc;
                sums.cpu += row.cpu;
                sums.size += row.size;
                if successors & !mask != 0 {
                    sums.outgoing += row.link;
                }
            } else if successors & mask != 0 {
                sums.incoming += row.link;
            }
        }
        sums
    }

    /// Finds a least split on the scale peak, with accelerators of this limit as kind 1 and processors as kind 2.
    /// Its code goes on at `PLACE` bytes past a multiple of 64: how fast loops run depends on where they stand.
    #[inline(never)]
    pub fn find<const PLACE: usize>(&self, limit: u32, tables: &mut Tables) -> Found {
        unsafe {
            asm!(".p2align 6", ".skip {}, 0x90", const PLACE, options(nomem, nostack, preserves_flags))
        };
        let Tables {
            ideals,
            ratings,
            choices,
        } = tables;
        let Some(n) = self.list(ideals) else {
            return Found::refused(7);
        };
        let (k, l) = (self.k, self.l);
        let cell = |i: usize, a: usize, b: usize| (i * (k + 1) + a) * (l + 1) + b;
        if ratings.len() < cell(n, 0, 0) || choices.len() < cell(n, 0, 0) {
            return Found::refused(8);
        }
        for i in 0..n {
            ratings[cell(i, 0, 0)..cell(i + 1, 0, 0)].fill(0);
            choices[cell(i, 0, 0)..cell(i + 1, 0, 0)].fill(NONE);
            for j in 0..i {
                if ideals[j] & !ideals[i] != 0 {
                    continue;
                }
                let sums = self.sums(ideals[i] & !ideals[j]);
                let first = (sums.size <= limit).then(|| sums.incoming + sums.acc + sums.outgoing);
                let second = Some(sums.cpu);
                let mut offer = |from: usize, to: usize, kind: u8, ticks: u32| {
                    if j == 0 || choices[from].kind != 0 {
                        let rating = ratings[from].max(ticks);
                        if choices[to].kind == 0 || rating < ratings[to] {
                            ratings[to] = rating;
                            choices[to] = Choice {
                                ideal: j as u32,
                                kind,
                            };
                        }
                    }
                };
                for a in 0..=k {
                    for b in 0..=l {
                        if let Some(ticks) = first
                            && a > 0
                        {
                            offer(cell(j, a - 1, b), cell(i, a, b), 1, ticks);
                        }
                        if let Some(ticks) = second
                            && b > 0
                        {
                            offer(cell(j, a, b - 1), cell(i, a, b), 2, ticks);
                        }
                    }
                }
            }
        }
        let mut at = (n - 1, k, l);
        if at.0 > 0 && choices[cell(at.0, at.1, at.2)].kind == 0 {
            return Found::refused(9);
        }
        let mut found = Found {
            refusal: 0,
            rating: ratings[cell(at.0, at.1, at.2)],
            ideals: n,
            count: 0,
            stages: [Stage { mask: 0, kind: 0 }; 16],
        };
        loop {
            let choice = choices[cell(at.0, at.1, at.2)];
            if choice.kind == 0 {
                break;
            }
            let j = choice.ideal as usize;
            found.stages[found.count] = Stage {
                mask: ideals[at.0] & !ideals[j],
                kind: choice.kind,
            };
            found.count += 1;
            at = match choice.kind {
                1 => (j, at.1 - 1, at.2),
                _ => (j, at.1, at.2 - 1),
            };
        }
        found.stages[..found.count].reverse();
        found
    }
}
