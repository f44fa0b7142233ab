//! The model's reader and writer by themselves: the examples of docs/FORMAT.md, and one damage for each refusal.

use super::diamond::diamond;
use crate::model::files::HEAD;
use crate::model::reading::read;
use crate::model::refusals::{Reason, Refusal};
use crate::model::sheets::Sheet;

pub fn check() {
    let empty = [
        0x57, 0x45, 0x46, 0x54, 0x03, 0x01, 0x14, 0, 0, 0, 0x02, 0x14, 0, 0, 0, 0x03, 0x14, 0,
        0x02, 0, 0, 0,
    ];
    assert_eq!(Sheet::default().file(), empty);
    assert_eq!(read(&empty), Ok(Sheet::default()));

    let sheet = Sheet { k: 2, ..diamond() };
    let file = sheet.file();
    assert_eq!((file.len(), sheet.file_length()), (94, 94));
    assert_eq!(
        file[5..HEAD],
        [
            0x01, 0x14, 0, 0x40, 0, 0x02, 0x54, 0, 0x08, 0, 0x03, 0x5C, 0, 0x02, 0
        ]
    );
    assert_eq!(file[84..], [0, 1, 0, 2, 1, 3, 2, 3, 2, 0]);
    assert_eq!(read(&file).as_ref(), Ok(&sheet));
    check_damages(&file);
}

#[rustfmt::skip]
fn check_damages(file: &[u8]) {
    let body = |section, index, reason| Refusal::BodyEntry { section, index, reason };
    let damages = [
        (0, b'w', Refusal::NotASheetFile),
        (4, 2, Refusal::NotASheetFile),
        (5, 2, Refusal::ContentsEntry { index: 0 }),
        (8, 0x41, Refusal::ContentsEntry { index: 0 }),
        (13, 12, Refusal::ContentsEntry { index: 1 }),
        (13, 10, Refusal::ContentsEntry { index: 2 }),
        (18, 4, Refusal::ContentsEntry { index: 2 }),
        (38, 0x10, body(1, 1, Reason::AboveLimit)),
        (84, 4, body(2, 0, Reason::NoOperator)),
        (84, 2, body(2, 0, Reason::NotUpward)),
        (87, 1, body(2, 1, Reason::NotAscending)),
        (93, 9, body(3, 0, Reason::CountAboveLimit)),
    ];
    for (place, byte, due) in damages {
        let mut damaged = file.to_vec();
        damaged[place] = byte;
        assert_eq!(read(&damaged), Err(due), "byte {place} as {byte}");
    }
    assert_eq!(read(&file[..19]), Err(Refusal::NotASheetFile));
    assert_eq!(read(&file[..93]), Err(Refusal::ContentsEntry { index: 2 }));
    assert_eq!(read(&[file, &[0]].concat()), Err(Refusal::ContentsEntry { index: 2 }));
}
