//! The sheet that bytes stand for, or the first thing that is wrong with them: docs/FORMAT.md, docs/REFUSALS.md.

use std::ops::Range;

use super::files::{BODY_ENTRY, CONTENTS_ENTRY, HEAD, MARK, SECTIONS};
use super::limits::{MOST_DEVICES, MOST_EDGES, MOST_OPERATORS};
use super::refusals::{Reason, Refusal};
use super::sheets::{Operator, Sheet};

pub fn read(file: &[u8]) -> Result<Sheet, Refusal> {
    if file.len() < HEAD || file[..4] != MARK || usize::from(file[4]) != SECTIONS {
        return Err(Refusal::NotASheetFile);
    }
    let [operators, edges, counts] = contents(file)?.map(|body| &file[body]);
    let mut sheet = Sheet::default();
    read_operators(&mut sheet, operators)?;
    read_edges(&mut sheet, edges)?;
    read_counts(&mut sheet, counts)?;
    Ok(sheet)
}

/// Where each body is.
fn contents(file: &[u8]) -> Result<[Range<usize>; SECTIONS], Refusal> {
    let mut bodies = [const { 0..0 }; SECTIONS];
    let mut due = HEAD;
    for index in 0..SECTIONS {
        let entry = &file[5 + index * CONTENTS_ENTRY..][..CONTENTS_ENTRY];
        let length = small(&entry[3..]);
        let is_due = usize::from(entry[0]) == index + 1
            && small(&entry[1..]) == due
            && length.is_multiple_of(BODY_ENTRY[index])
            && entries(index).contains(&(length / BODY_ENTRY[index]))
            && if index == SECTIONS - 1 {
                due + length == file.len()
            } else {
                due + length <= file.len()
            };
        if !is_due {
            return Err(Refusal::ContentsEntry {
                index: index as u64,
            });
        }
        bodies[index] = due..due + length;
        due += length;
    }
    Ok(bodies)
}

/// How many entries a body may have.
fn entries(index: usize) -> std::ops::RangeInclusive<usize> {
    match index {
        0 => 0..=MOST_OPERATORS,
        1 => 0..=MOST_EDGES,
        _ => 1..=1,
    }
}

/// The number in the first two bytes.
fn small(bytes: &[u8]) -> usize {
    usize::from(bytes[0]) + 256 * usize::from(bytes[1])
}

fn figure(bytes: &[u8]) -> u64 {
    bytes
        .iter()
        .rev()
        .fold(0, |number, &byte| 256 * number + u64::from(byte))
}

fn wrong(section: u64, index: usize, reason: Reason) -> Refusal {
    Refusal::BodyEntry {
        section,
        index: index as u64,
        reason,
    }
}

fn read_operators(sheet: &mut Sheet, body: &[u8]) -> Result<(), Refusal> {
    for (index, entry) in body.chunks(BODY_ENTRY[0]).enumerate() {
        let [acc, cpu, size, link] = [0, 4, 8, 12].map(|place| figure(&entry[place..place + 4]));
        let operator = Operator {
            acc,
            cpu,
            size,
            link,
        };
        if !operator.is_modest() {
            return Err(wrong(1, index, Reason::AboveLimit));
        }
        sheet.operators.push(operator);
    }
    Ok(())
}

fn read_edges(sheet: &mut Sheet, body: &[u8]) -> Result<(), Refusal> {
    let mut last = None;
    for (index, entry) in body.chunks(BODY_ENTRY[1]).enumerate() {
        let edge = (usize::from(entry[0]), usize::from(entry[1]));
        let reason = if edge.0.max(edge.1) >= sheet.operators.len() {
            Some(Reason::NoOperator)
        } else if edge.1 <= edge.0 {
            Some(Reason::NotUpward)
        } else if last.is_some_and(|last| edge <= last) {
            Some(Reason::NotAscending)
        } else {
            None
        };
        if let Some(reason) = reason {
            return Err(wrong(2, index, reason));
        }
        last = Some(edge);
        sheet.edges.insert(edge);
    }
    Ok(())
}

fn read_counts(sheet: &mut Sheet, body: &[u8]) -> Result<(), Refusal> {
    (sheet.k, sheet.l) = (u64::from(body[0]), u64::from(body[1]));
    if sheet.k.max(sheet.l) > MOST_DEVICES {
        return Err(wrong(3, 0, Reason::CountAboveLimit));
    }
    Ok(())
}
