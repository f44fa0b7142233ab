//! The examples of docs/EXAMPLES.md that have a name, and two of docs/RULES.md and README.md.

use super::diamond::diamond;
use super::{FILLER, planner, sheet, tables};
use crate::model::refusals::Refusal;
use crate::model::scales::Scale;
use crate::model::sheets::Sheet;
use crate::model::splits::Stage;
use crate::planning::Planning;

struct Example {
    name: &'static str,
    sheet: Sheet,
    /// k, l and M.
    devices: [u64; 3],
    scale: Scale,
    /// Lengths of the tables.
    room: [usize; 3],
    /// The rating, and each stage's kind and mask.
    due: Result<(u64, &'static [(u64, u64)]), Refusal>,
}

const WIDE: [usize; 3] = [8, 40, 40];

#[rustfmt::skip]
fn examples() -> [Example; 14] {
    let one = || sheet(&[[3, 9, 4, 2]], &[]);
    let peak = |name, sheet, devices, room, due| Example { name, sheet, devices, scale: Scale::Peak, room, due };
    let line = |name, devices, due| Example { scale: Scale::Line, ..peak(name, diamond(), devices, WIDE, due) };
    [
        peak("no_operator", Sheet::default(), [0, 0, 0], WIDE, Ok((0, &[]))),
        peak("no_device", one(), [0, 0, 4], WIDE, Err(Refusal::NoLawfulSplit)),
        peak("room_enough", one(), [1, 0, 4], WIDE, Ok((3, &[(1, 1)]))),
        peak("too_little_room", one(), [1, 0, 3], WIDE, Err(Refusal::NoLawfulSplit)),
        peak("two_accelerators", diamond(), [2, 0, 4], WIDE, Ok((8, &[(1, 3), (1, 12)]))),
        peak("two_accelerators, just so long", diamond(), [2, 0, 4], [6, 18, 18], Ok((8, &[(1, 3), (1, 12)]))),
        peak("one_of_each", diamond(), [1, 1, 3], WIDE, Ok((13, &[(1, 5), (2, 10)]))),
        line("least_sum", [2, 0, 6], Ok((11, &[(1, 15)]))),
        line("limit 5", [2, 0, 5], Ok((13, &[(1, 1), (1, 14)]))),
        peak("limit 1000000", diamond(), [2, 0, 1_000_000], WIDE, Ok((8, &[(1, 3), (1, 12)]))),
        peak("too_much_for_one", diamond(), [1, 0, 3], WIDE, Err(Refusal::NoLawfulSplit)),
        peak("short_table", diamond(), [2, 0, 4], [5, 40, 40], Err(Refusal::TooManyIdeals)),
        peak("short_ratings", diamond(), [2, 0, 4], [8, 17, 40], Err(Refusal::TooFewCells)),
        peak("short_choices", diamond(), [2, 0, 4], [8, 40, 17], Err(Refusal::TooFewCells)),
    ]
}

pub fn check() {
    examples().into_iter().for_each(check_example);
}

fn check_example(example: Example) {
    let Example {
        name,
        sheet,
        devices,
        scale,
        room,
        due,
    } = example;
    let listed = sheet.ideals(room[0]);
    let mut planner = planner(sheet, devices, scale);
    let mut tables = tables(room);
    let found = planner.plan(&mut tables);

    let rating = found.map(|plan| plan.rating.ticks);
    assert_eq!(
        rating,
        due.map(|(rating, _)| rating).map_err(Into::into),
        "{name}"
    );
    assert_eq!(tables.ideals[..listed.len()], listed, "{name}");
    assert!(
        tables.ideals[listed.len()..]
            .iter()
            .all(|&place| place == FILLER),
        "{name}"
    );
    if let Ok((rating, stages)) = due {
        let stages: Vec<Stage> = stages
            .iter()
            .map(|&(kind, mask)| Stage { kind, mask })
            .collect();
        assert_eq!(planner.stages(), stages, "{name}");
        assert_eq!(
            planner.stage(stages.len() as u64),
            Err(Refusal::NoStage.into()),
            "{name}"
        );
        let judged = planner.problem().rating(&stages);
        assert_eq!(judged.map(|judged| judged.ticks), Some(rating), "{name}");
    }
}
