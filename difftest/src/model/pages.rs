//! A split as text: docs/RULES.md, *Pace and page*.

use super::masks::members;
use super::splits::Stage;

pub fn page(stages: &[Stage], pace: u64) -> String {
    let lines = stages.iter().map(stage_line);
    std::iter::once(format!("stages {} pace {pace}\n", stages.len()))
        .chain(lines)
        .collect()
}

fn stage_line(stage: &Stage) -> String {
    let letter = if stage.kind == 1 { 'A' } else { 'B' };
    let operators: String = members(stage.mask)
        .map(|operator| format!(" {operator}"))
        .collect();
    format!("{letter}{operators}\n")
}
