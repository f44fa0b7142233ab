//! A sheet as bytes: docs/FORMAT.md.

use super::sheets::Sheet;

pub const MARK: [u8; 4] = *b"WEFT";
pub const HEAD: usize = 20;
pub const SECTIONS: usize = 3;
/// Bytes of a contents entry, and of an entry of each body.
pub const CONTENTS_ENTRY: usize = 5;
pub const BODY_ENTRY: [usize; SECTIONS] = [16, 2, 2];

impl Sheet {
    pub fn file_length(&self) -> usize {
        HEAD + BODY_ENTRY[0] * self.operators.len()
            + BODY_ENTRY[1] * self.edges.len()
            + BODY_ENTRY[2]
    }

    pub fn file(&self) -> Vec<u8> {
        let bodies = self.bodies();
        let mut file = MARK.to_vec();
        file.push(SECTIONS as u8);
        let mut offset = HEAD;
        for (section, body) in (1..).zip(&bodies) {
            file.push(section);
            file.extend((offset as u16).to_le_bytes());
            file.extend((body.len() as u16).to_le_bytes());
            offset += body.len();
        }
        file.extend(bodies.concat());
        file
    }

    fn bodies(&self) -> [Vec<u8>; SECTIONS] {
        let figures = self
            .operators
            .iter()
            .flat_map(|operator| operator.figures());
        [
            figures
                .flat_map(|figure| (figure as u32).to_le_bytes())
                .collect(),
            self.edges
                .iter()
                .flat_map(|&(from, to)| [from as u8, to as u8])
                .collect(),
            vec![self.k as u8, self.l as u8],
        ]
    }
}
