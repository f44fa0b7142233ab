//! The networks that are measured, and the bytes of their sheet files.

/// The figures of an operator: ticks on an accelerator, ticks on a processor, memory in KiB, ticks to move its output.
#[derive(Clone, Copy)]
pub struct Operator {
    pub acc: u32,
    pub cpu: u32,
    pub size: u32,
    pub link: u32,
}

/// A network: its operators, and its edges, which lead to higher numbers.
pub struct Network {
    pub name: String,
    pub operators: Vec<Operator>,
    pub edges: Vec<(u8, u8)>,
}

/// The numbers of a fixed sequence, so that each run measures the same sheets.
struct Draws(u64);

impl Draws {
    fn between(&mut self, least: u32, most: u32) -> u32 {
        // xorshift64
        self.0 ^= self.0 << 13;
        self.0 ^= self.0 >> 7;
        self.0 ^= self.0 << 17;
        least + ((self.0 >> 33) % u64::from(most - least + 1)) as u32
    }

    /// Sixty-four operators of the greatest size come to 960,000, so that a stage fits an accelerator of the usual limit.
    fn operator(&mut self) -> Operator {
        Operator {
            acc: self.between(100, 2_000),
            cpu: self.between(300, 8_000),
            size: self.between(1_000, 15_000),
            link: self.between(10, 400),
        }
    }
}

impl Network {
    fn new(name: String, count: u8, mut edges: Vec<(u8, u8)>) -> Network {
        edges.sort();
        edges.dedup();
        let mut draws = Draws(0x5EED_0000_0000_0001 + u64::from(count) * 977 + edges.len() as u64);
        Network {
            name,
            operators: (0..count).map(|_| draws.operator()).collect(),
            edges,
        }
    }

    /// `count` chains of `length` operators each, without edges between them.
    pub fn chains(count: u8, length: u8) -> Network {
        let name = match (count, length) {
            (1, _) => format!("chain of {length}"),
            (_, 1) => format!("antichain of {count}"),
            _ => format!("{count} chains of {length}"),
        };
        let edges = (0..count)
            .flat_map(|c| (1..length).map(move |v| (c * length + v - 1, c * length + v)))
            .collect();
        Network::new(name, count * length, edges)
    }

    /// A stem of six operators, six blocks of four branches that are joined, and a head of four.
    pub fn inception() -> Network {
        let mut edges = Vec::new();
        let mut next = 0;
        let mut end = chain(&mut edges, &mut next, None, 6);
        for _ in 0..6 {
            let ends = [1, 2, 2, 2].map(|length| chain(&mut edges, &mut next, Some(end), length));
            end = join(&mut edges, &mut next, &ends);
        }
        chain(&mut edges, &mut next, Some(end), 4);
        Network::new("inception-like".to_string(), next, edges)
    }

    /// An embedding and a norm, four layers with attention beside a gated feed-forward, and a head of three.
    pub fn transformer() -> Network {
        let mut edges = Vec::new();
        let mut next = 0;
        let mut end = chain(&mut edges, &mut next, None, 2);
        for _ in 0..4 {
            let [query, key, value] = [(); 3].map(|()| join(&mut edges, &mut next, &[end]));
            let scores = join(&mut edges, &mut next, &[query, key]);
            let weights = join(&mut edges, &mut next, &[scores]);
            let mixed = join(&mut edges, &mut next, &[weights, value]);
            let attended = join(&mut edges, &mut next, &[mixed]);
            let [gate, up] = [(); 2].map(|()| join(&mut edges, &mut next, &[end]));
            let gated = join(&mut edges, &mut next, &[gate, up]);
            let down = join(&mut edges, &mut next, &[gated]);
            // the layer's input is added too
            let sum = join(&mut edges, &mut next, &[end, attended, down]);
            end = join(&mut edges, &mut next, &[sum]);
        }
        chain(&mut edges, &mut next, Some(end), 3);
        Network::new("transformer-like".to_string(), next, edges)
    }

    /// The bytes of the sheet file with these counts of devices.
    pub fn file(&self, k: u8, l: u8) -> Vec<u8> {
        let operators = 16 * self.operators.len();
        let edges = 2 * self.edges.len();
        let mut file = b"WEFT\x03".to_vec();
        for (section, offset, length) in [
            (1, 20, operators),
            (2, 20 + operators, edges),
            (3, 20 + operators + edges, 2),
        ] {
            file.push(section);
            file.extend((offset as u16).to_le_bytes());
            file.extend((length as u16).to_le_bytes());
        }
        for row in &self.operators {
            for figure in [row.acc, row.cpu, row.size, row.link] {
                file.extend(figure.to_le_bytes());
            }
        }
        for (from, to) in &self.edges {
            file.extend([*from, *to]);
        }
        file.extend([k, l]);
        file
    }
}

/// Adds an operator with an edge from each of these, and answers its number.
fn join(edges: &mut Vec<(u8, u8)>, next: &mut u8, sources: &[u8]) -> u8 {
    let v = *next;
    *next += 1;
    edges.extend(sources.iter().map(|source| (*source, v)));
    v
}

/// Adds a chain of operators after `source`, and answers the number of its last one.
fn chain(edges: &mut Vec<(u8, u8)>, next: &mut u8, source: Option<u8>, length: u8) -> u8 {
    let mut last = source;
    for _ in 0..length {
        last = Some(join(edges, next, last.as_slice()));
    }
    last.expect("a chain has an operator")
}
