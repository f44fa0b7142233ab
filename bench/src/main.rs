//! Measures finding a least split beside a straightforward implementation in Rust, and compares all that both leave.

mod clock;
mod plain;
mod proved;
mod sheets;
mod stack;
mod tables;

use clock::{LEAST_SAMPLES, MOST_SAMPLES, least, median, samples};
use proved::{AT_0, AT_16, Linked};
use sheets::Network;
use std::hint::black_box;
use tables::Tables;

const LIMIT: u32 = 1_000_000;
const COUNTS: [(u8, u8); 4] = [(1, 0), (2, 2), (4, 4), (8, 8)];

const PASSES: u32 = 3;

/// The cells of 4,096 ideals with eight devices of each kind, and some past them, which no search may write.
const MOST_CELLS: usize = 4096 * 81;
const BEYOND: usize = 100;

/// The two implementations on one sheet.
struct Subject {
    label: String,
    file: Vec<u8>,
    sheet: plain::Sheet,
}

/// What two searches that agree have in common.
struct Agreement {
    ideals: usize,
    /// of ideals, one inside the other
    pairs: usize,
    cells: usize,
}

impl Subject {
    fn new(network: &Network, (k, l): (u8, u8)) -> Subject {
        Subject {
            label: format!("{} with {k}/{l}", network.name),
            file: network.file(k, l),
            sheet: plain::Sheet::new(network, k, l),
        }
    }

    /// Runs both on tables that hold this many cells, and fails where they differ: in what they answer, in an ideal,
    /// in a cell, or in what lies beyond. Answers the refusal and the tables.
    fn search_both(&self, ours_at: Linked, cells: usize) -> (u8, Tables) {
        let mut ours = Tables::new(cells);
        let mut theirs = ours.clone();
        let answer = ours_at.find(&self.file, LIMIT, &mut ours);
        let expected = self.sheet.find::<0>(LIMIT, &mut theirs);
        let label = &self.label;
        assert_eq!(answer, expected, "{label}: the answers differ");
        for (i, ideal) in ours.ideals.iter().enumerate() {
            assert_eq!(*ideal, theirs.ideals[i], "{label}: ideal {i} differs");
        }
        for cell in 0..cells {
            let (rating, choice) = (ours.ratings[cell], ours.choices[cell]);
            assert_eq!(
                rating, theirs.ratings[cell],
                "{label}: rating {cell} differs"
            );
            assert_eq!(
                choice, theirs.choices[cell],
                "{label}: choice {cell} differs"
            );
        }
        (answer.refusal, ours)
    }

    /// Holds both against each other with room for all cells and more, and with room for one too few.
    fn agree(&self, (k, l): (u8, u8)) -> Agreement {
        let (refusal, tables) = self.search_both(AT_0, MOST_CELLS + BEYOND);
        assert!(
            refusal == 0 || refusal == 9,
            "{}: refused with {refusal}",
            self.label
        );
        let untouched = Tables::new(0).ideals[0];
        let ideals: Vec<u64> = tables
            .ideals
            .into_iter()
            .take_while(|ideal| *ideal != untouched)
            .collect();
        let cells = ideals.len() * (usize::from(k) + 1) * (usize::from(l) + 1);
        let (short, _) = self.search_both(AT_16, cells - 1);
        assert_eq!(short, 8, "{}: short tables", self.label);
        self.search_both(AT_16, cells);
        let inside = |i: usize| ideals[..i].iter().filter(|j| **j & !ideals[i] == 0).count();
        Agreement {
            ideals: ideals.len(),
            pairs: (0..ideals.len()).map(inside).sum(),
            cells,
        }
    }
}

/// What was measured of a sheet with some counts. Times are microseconds, of the code at either place.
struct Row {
    name: String,
    counts: (u8, u8),
    subject: Subject,
    agreement: Agreement,
    ours: [f64; 2],
    plain: [f64; 2],
}

fn most(times: [f64; 2]) -> f64 {
    times[0].max(times[1])
}

impl Row {
    /// Compares both on one sheet. They are not timed yet.
    fn new(network: &Network, counts: (u8, u8)) -> Row {
        let subject = Subject::new(network, counts);
        let agreement = subject.agree(counts);
        Row {
            name: network.name.clone(),
            counts,
            subject,
            agreement,
            ours: [f64::INFINITY; 2],
            plain: [f64::INFINITY; 2],
        }
    }

    /// Times both. The tables stay as the call before left them: each call writes all of its cells anew.
    fn time(&mut self) {
        let (file, sheet) = (&self.subject.file, &self.subject.sheet);
        let [mut a, mut b, mut c, mut d] = [(); 4].map(|()| Tables::new(self.agreement.cells));
        let [ours_at_0, ours_at_16, plain_at_0, plain_at_16] = samples([
            &mut || {
                black_box(AT_0.find(black_box(file), LIMIT, &mut a));
            },
            &mut || {
                black_box(AT_16.find(black_box(file), LIMIT, &mut b));
            },
            &mut || {
                black_box(sheet.find::<0>(LIMIT, black_box(&mut c)));
            },
            &mut || {
                black_box(sheet.find::<16>(LIMIT, black_box(&mut d)));
            },
        ]);
        let (ours, plain) = (self.ours, self.plain);
        self.ours = [
            ours[0].min(least(ours_at_0)),
            ours[1].min(least(ours_at_16)),
        ];
        self.plain = [
            plain[0].min(least(plain_at_0)),
            plain[1].min(least(plain_at_16)),
        ];
    }

    /// Of the better place of each.
    fn ratio(&self) -> f64 {
        least(self.plain) / least(self.ours)
    }

    /// Of the worse place of ours and the better of the plain one.
    fn worst_ratio(&self) -> f64 {
        least(self.plain) / most(self.ours)
    }

    /// How many cells a search offers to others: with a device of either kind more.
    fn candidates(&self) -> usize {
        let (k, l) = (usize::from(self.counts.0), usize::from(self.counts.1));
        self.agreement.pairs * (k * (l + 1) + (k + 1) * l)
    }
}

fn print_ratios(rows: &[Row]) {
    println!(
        "| Sheet | Ideals | Counts | Ours, us | Plain, us | Ratio | Ours at its worse place, us | Plain at its worse place, us | Worst ratio |"
    );
    println!("|---|---|---|---|---|---|---|---|---|");
    for row in rows {
        let (k, l) = row.counts;
        println!(
            "| {} | {} | {k}/{l} | {:.1} | {:.1} | {:.2} | {:.1} | {:.1} | {:.2} |",
            row.name,
            row.agreement.ideals,
            least(row.ours),
            least(row.plain),
            row.ratio(),
            most(row.ours),
            most(row.plain),
            row.worst_ratio(),
        );
    }
}

fn print_medians(rows: &[Row]) {
    println!(
        "| Counts | Median ratio, sheets of more than 200 ideals | Least ratio, all sheets | Median of their worst ratios | Least of all worst ratios |"
    );
    println!("|---|---|---|---|---|");
    for (k, l) in COUNTS {
        let ratios = |ratio: fn(&Row) -> f64, more_than: usize| {
            rows.iter()
                .filter(move |row| row.counts == (k, l) && row.agreement.ideals > more_than)
                .map(ratio)
        };
        println!(
            "| {k}/{l} | {:.2} | {:.2} | {:.2} | {:.2} |",
            median(ratios(Row::ratio, 200)),
            least(ratios(Row::ratio, 0)),
            median(ratios(Row::worst_ratio, 200)),
            least(ratios(Row::worst_ratio, 0)),
        );
    }
}

fn print_growth(rows: &[Row]) {
    println!(
        "| Sheet | Ideals | Pairs | Counts | Cells an ideal | Ours, us | Ours, ns a pair | Ours, ns a candidate | Plain, ns a pair | Ratio |"
    );
    println!("|---|---|---|---|---|---|---|---|---|---|");
    for row in rows {
        let (k, l) = row.counts;
        let agreement = &row.agreement;
        let (ours, plain) = (least(row.ours), least(row.plain));
        let nanoseconds = |microseconds: f64, count: usize| microseconds * 1e3 / count as f64;
        println!(
            "| {} | {} | {} | {k}/{l} | {} | {ours:.1} | {:.1} | {:.2} | {:.1} | {:.2} |",
            row.name,
            agreement.ideals,
            agreement.pairs,
            agreement.cells / agreement.ideals,
            nanoseconds(ours, agreement.pairs),
            nanoseconds(ours, row.candidates()),
            nanoseconds(plain, agreement.pairs),
            row.ratio(),
        );
    }
}

/// A call that reads the file and then finds no place in the table of ideals: what the boundary and the file cost.
fn print_boundary(network: &Network) {
    let file = network.file(8, 8);
    let mut tables = Tables::new(0);
    tables.ideals.clear();
    let [taken] = samples([&mut || {
        let found = AT_0.find(black_box(&file), LIMIT, &mut tables);
        assert_eq!(found.refusal, 7);
    }]);
    println!(
        "Of a call, reading the file of the {} and crossing the boundary take {:.2} us.",
        network.name,
        least(taken)
    );
}

fn print_stack(networks: &[Network]) {
    println!("| Sheet, with 8/8 | Stack of a call, bytes |");
    println!("|---|---|");
    for network in networks {
        let file = network.file(8, 8);
        let mut tables = Tables::new(MOST_CELLS);
        let depth = stack::depth(&mut || {
            black_box(AT_0.find(&file, LIMIT, &mut tables));
        });
        println!("| {} | {depth} |", network.name);
    }
}

/// Compares both on all of these, and then times all of them again and again, so that a disturbance falls on some samples only.
fn measured(subjects: Vec<(&Network, (u8, u8))>) -> Vec<Row> {
    let mut rows: Vec<Row> = subjects
        .into_iter()
        .map(|(network, counts)| Row::new(network, counts))
        .collect();
    for _ in 0..PASSES {
        for row in &mut rows {
            row.time();
        }
    }
    rows
}

fn print_all(networks: &[Network]) {
    assert_eq!(
        (AT_0.place(), AT_16.place()),
        (0, 16),
        "the places of the two copies"
    );
    println!(
        "Times are of one call: the least of {} to {} samples of processor time, taken by turns.",
        PASSES * LEAST_SAMPLES,
        PASSES * MOST_SAMPLES
    );
    println!(
        "Either code stands at two places, 0 and 16 bytes past a multiple of 64; the better one is told, but where the worse one is named.\n"
    );
    let pairs = networks
        .iter()
        .flat_map(|network| COUNTS.map(|counts| (network, counts)));
    let rows = measured(pairs.collect());
    print_ratios(&rows);
    println!();
    print_medians(&rows);

    println!("\nHow the cost grows with the ideals, on two chains:\n");
    let lengths = [8, 16, 24, 32].map(|length| Network::chains(2, length));
    let with = |counts: (u8, u8)| lengths.iter().map(move |network| (network, counts));
    let by_ideals = measured(with((1, 0)).chain(with((8, 8))).collect());
    print_growth(&by_ideals);

    println!("\nHow the cost grows with the counts, on the transformer-like network:\n");
    let counts = [
        (1, 0),
        (2, 0),
        (4, 0),
        (8, 0),
        (1, 1),
        (2, 2),
        (4, 4),
        (8, 8),
    ];
    let by_counts = measured(counts.map(|counts| (&networks[2], counts)).into());
    print_growth(&by_counts);

    println!("\nThe first sheets by their pairs:\n");
    print_growth(&rows);

    println!();
    print_boundary(&networks[0]);
    println!();
    print_stack(networks);
    let all = rows.iter().chain(&by_ideals).chain(&by_counts);
    let compared: usize = all.map(|row| row.agreement.cells).sum();
    println!(
        "\nThe {compared} cells of all these, ratings and choices, were compared one by one, with the lists of ideals, the answers and what lies beyond the cells: all are the same."
    );
}

fn main() {
    let networks = [
        Network::chains(1, 64),
        Network::inception(),
        Network::transformer(),
        Network::chains(2, 32),
        Network::chains(3, 15),
        Network::chains(12, 1),
    ];
    match std::env::args().nth(1).as_deref() {
        Some("stack") => print_stack(&networks),
        _ => print_all(&networks),
    }
}
