//! The diamond's worked numbers, and the examples of docs/EXAMPLES.md that have no name.

use super::{planner, sheet, tables};
use crate::model::devices::Kind;
use crate::model::refusals::Refusal;
use crate::model::scales::{Rating, Scale};
use crate::model::sheets::Sheet;
use crate::model::splits::Stage;
use crate::planning::Planning;

pub fn diamond() -> Sheet {
    let figures = [[2, 6, 1, 1], [4, 8, 2, 1], [3, 9, 2, 1], [2, 5, 1, 1]];
    sheet(&figures, &[(0, 1), (0, 2), (1, 3), (2, 3)])
}

pub fn check() {
    check_figures();
    check_reading();
    check_pair();
    check_loose();
    check_crossed();
}

fn check_figures() {
    let sheet = diamond();
    assert_eq!(sheet.ideals(usize::MAX), [0, 1, 3, 5, 7, 15]);
    assert_eq!(
        sheet.figures(1).out,
        1,
        "two edges leave, one operator is charged"
    );
    let accelerator = Kind::accelerator(3).expect("a small limit");
    let ticks = |kind: Kind, stage| kind.load(sheet.figures(stage)).map(|load| load.ticks);
    assert_eq!(ticks(accelerator, 0b0001), Some(3));
    assert_eq!(ticks(accelerator, 0b0011), Some(8));
    assert_eq!(ticks(accelerator, 0b1111), None);
    assert_eq!(ticks(Kind::Processor, 0b0011), Some(14));
}

fn check_reading() {
    let mut planner = planner(diamond(), [2, 0, 4], Scale::Peak);
    assert_eq!(planner.margin(10), Err(Refusal::NoSplit.into()));
    planner
        .plan(&mut tables([6, 18, 18]))
        .expect("a split in two");
    assert_eq!(planner.margin(10), Ok(2));
    assert_eq!(planner.margin(0), Ok(-8));
    let mut buffer = [b'-'; 30];
    let length = planner.page(&mut buffer).expect("room for the page");
    assert_eq!(&buffer[..length], b"stages 2 pace 8\nA 0 1\nA 2 3\n");
    assert!(buffer[length..].iter().all(|&byte| byte == b'-'));
    let places = [0, 1, 2, 3, 4].map(|operator| planner.place(operator).ok());
    assert_eq!(places, [Some(0), Some(0), Some(1), Some(1), None]);
}

fn check_pair() {
    let mut planner = planner(diamond(), [2, 0, 1_000_000], Scale::Pair);
    let plan = planner
        .plan(&mut tables([6, 18, 18]))
        .expect("a split in two");
    assert_eq!(plan.rating, Rating { ticks: 8, link: 2 });
}

/// Without edges.
fn check_loose() {
    let planned = |operators| {
        let loose = sheet(&vec![[1, 1, 1, 1]; operators], &[]);
        let mut planner = planner(loose, [1, 0, 64], Scale::Peak);
        planner
            .plan(&mut tables([5000, 10_000, 10_000]))
            .map(|plan| plan.ideals)
    };
    assert_eq!(planned(12), Ok(4096));
    assert_eq!(planned(13), Err(Refusal::TooManyIdeals.into()));
}

/// Connected stages that have no lawful order.
fn check_crossed() {
    let crossed = sheet(&[[1, 1, 1, 1]; 4], &[(0, 3), (1, 2)]);
    let planner = planner(crossed, [2, 0, 64], Scale::Peak);
    let [one, other] = [0b0101, 0b1010].map(|mask| Stage { kind: 1, mask });
    assert_eq!(planner.problem().rating(&[one, other]), None);
    assert_eq!(planner.problem().rating(&[other, one]), None);
}
