//! That each function of include/controller.h is called, and that a planner is as long as it says there.

use std::collections::BTreeSet;

const HEADER: &str = include_str!("../../../include/controller.h");

const CALLS: [&str; 14] = [
    "new", "add", "join", "retime", "count", "load", "clear", "plan", "stage", "place", "rating",
    "margin", "page", "write",
];

/// Stops where the header has other functions than these of each scale, or another length of a planner.
pub fn check(scales: &[(&str, usize)]) {
    let of_scale = |scale: &str| CALLS.map(|call| format!("planner_{scale}_{call}"));
    let called: BTreeSet<String> = scales
        .iter()
        .flat_map(|(scale, _)| of_scale(scale))
        .collect();
    assert_eq!(called, declared(), "the functions of the header, right");
    for (scale, words) in scales {
        let planner = format!("struct planner_{scale} {{\n    uint64_t opaque[{words}];\n}};");
        assert!(HEADER.contains(&planner), "the header has no '{planner}'");
    }
}

/// The names before an opening bracket.
fn declared() -> BTreeSet<String> {
    let is_name = |letter: char| letter.is_ascii_alphanumeric() || letter == '_';
    HEADER
        .split('(')
        .filter_map(|before| before.rsplit(|letter| !is_name(letter)).next())
        .filter(|name| name.starts_with("planner_"))
        .map(String::from)
        .collect()
}
