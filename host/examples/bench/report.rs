//! The tables: geometric means by group, what is behind the scalar Rust, and every item.

use crate::items::{Item, LIBRARIES};

const OURS: usize = 0;
const SCALAR: usize = 1;

/// Instructions and nanoseconds: the two kinds of figures, in this order everywhere.
const UNITS: [&str; 2] = ["Ir", "ns"];

/// An item or a group, with its figures by kind and library. Instructions may not be counted.
struct Row {
    group: String,
    name: String,
    figures: [Option<Vec<f64>>; 2],
}

impl Row {
    fn figure(&self, kind: usize, library: usize) -> Option<f64> {
        self.figures[kind].as_ref().map(|by_library| by_library[library])
    }

    /// Ours to that library's.
    fn ratio(&self, kind: usize, library: usize) -> Option<f64> {
        Some(self.figure(kind, OURS)? / self.figure(kind, library)?)
    }

    fn cells(&self) -> String {
        let kinds = 0..UNITS.len();
        let mut cells = vec![self.name.clone()];
        for kind in kinds.clone() {
            cells.extend((OURS..LIBRARIES.len()).map(|library| number(self.figure(kind, library))));
        }
        for library in SCALAR..LIBRARIES.len() {
            cells.extend(kinds.clone().map(|kind| ratio(self.ratio(kind, library))));
        }
        format!("| {} |\n", cells.join(" | "))
    }
}

/// The tables of what was counted and timed, by item and library.
pub fn page(items: &[Item], counts: Option<&[Vec<f64>]>, times: &[Vec<f64>]) -> String {
    let row = |(at, item): (usize, &Item)| Row {
        group: item.group.clone(),
        name: item.name.clone(),
        figures: [counts.map(|counts| counts[at].clone()), Some(times[at].clone())],
    };
    let rows: Vec<Row> = items.iter().enumerate().map(row).collect();
    format!(
        "## Geometric means by group\n\n{}\n## Behind the scalar Rust\n\n{}\n## All items\n\n{}",
        table("group", &means(&rows)),
        behind(&rows),
        table("item", &rows),
    )
}

/// A row for each group, and one for all items.
fn means(items: &[Row]) -> Vec<Row> {
    let mut groups: Vec<&str> = items.iter().map(|item| item.group.as_str()).collect();
    groups.dedup();
    let of_group = |group: &&str| {
        mean(group, &items.iter().filter(|item| item.group == *group).collect::<Vec<_>>())
    };
    let mut means: Vec<Row> = groups.iter().map(of_group).collect();
    means.push(mean("**ALL**", &items.iter().collect::<Vec<_>>()));
    means
}

fn mean(name: &str, items: &[&Row]) -> Row {
    let of_library = |kind, library| {
        let logs = items.iter().map(|item| item.figure(kind, library).map(f64::ln));
        logs.sum::<Option<f64>>().map(|sum| (sum / items.len() as f64).exp())
    };
    let of_kind = |kind| (OURS..LIBRARIES.len()).map(|library| of_library(kind, library)).collect();
    Row { group: name.to_string(), name: name.to_string(), figures: [of_kind(0), of_kind(1)] }
}

fn table(first: &str, rows: &[Row]) -> String {
    let mut heads = vec![first.to_string()];
    for unit in UNITS {
        heads.extend(LIBRARIES.iter().map(|library| format!("{library} {unit}")));
    }
    for library in &LIBRARIES[SCALAR..] {
        heads.extend(UNITS.map(|unit| format!("ours/{library} {unit}")));
    }
    let ruler = format!("| --- {}|\n", "| ---: ".repeat(heads.len() - 1));
    let cells: String = rows.iter().map(Row::cells).collect();
    format!("| {} |\n{ruler}{cells}", heads.join(" | "))
}

/// The items that take more than the scalar Rust.
fn behind(items: &[Row]) -> String {
    let list = |kind: usize| {
        let ratios = items.iter().map(|item| (item, item.ratio(kind, SCALAR)));
        let behind = ratios.filter(|(_, ratio)| ratio.is_some_and(|ratio| ratio > 1.0));
        let names = behind.map(|(item, by)| format!("{} ({})", item.name, ratio(by)));
        names.collect::<Vec<_>>().join(", ")
    };
    let line = |kind: usize| match (&items[0].figures[kind], list(kind)) {
        (None, _) => format!("- {}: not counted.\n", UNITS[kind]),
        (_, none) if none.is_empty() => format!("- {}: none.\n", UNITS[kind]),
        (_, names) => format!("- {}: {names}.\n", UNITS[kind]),
    };
    line(0) + &line(1)
}

/// Three figures at least, and a comma between thousands.
fn number(value: Option<f64>) -> String {
    let Some(value) = value else { return "-".to_string() };
    if value < 99.95 {
        return format!("{value:.1}");
    }
    let digits = format!("{value:.0}");
    let mut text = String::new();
    for (at, digit) in digits.chars().enumerate() {
        if at > 0 && (digits.len() - at) % 3 == 0 {
            text.push(',');
        }
        text.push(digit);
    }
    text
}

fn ratio(value: Option<f64>) -> String {
    match value {
        None => "-".to_string(),
        Some(value) if value < 0.0995 => format!("{value:.3}"),
        Some(value) => format!("{value:.2}"),
    }
}
