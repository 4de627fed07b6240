//! The gate's count: our instructions for a take on small grids, beside stored figures.
//!
//! Callgrind counts the same each time, so that a small rise is seen where times would not show it.
use std::fs;

use crate::instructions::count_ours;
use crate::plans::gated;

/// A name and a figure on each line.
const STORED: &str = concat!(env!("CARGO_MANIFEST_DIR"), "/instructions.txt");
const HEADING: &str =
    "# Our instructions for a take, which `bench/run --gate` compares and `bench/run --gate --store` writes anew.\n";

/// The part by which a count may differ from its stored figure.
const ALLOWED: f64 = 0.03;

/// A grid's name and its instructions for a take.
type Figure = (String, f64);

/// How a count stands to its stored figure.
#[derive(Debug, PartialEq)]
enum Judged {
    Holds,
    Above,
    Below,
    NotStored,
}

/// Counts each grid, and fails where one is above its stored figure or has none.
pub fn hold() -> Result<(), String> {
    let stored = read(&fs::read_to_string(STORED).map_err(|error| format!("{STORED}: {error}"))?)?;
    let counted = counted()?;
    let mut failed = unknown(&stored, &counted);
    for (name, count) in &counted {
        let (judged, figure) = judge(*count, &stored, name);
        println!(
            "{name}: {count:.1}, stored {}{}",
            figure.map_or("none".into(), |at| format!("{at:.1}")),
            said(&judged)
        );
        if matches!(judged, Judged::Above | Judged::NotStored) {
            failed.push(name.clone());
        }
    }
    if failed.is_empty() { Ok(()) } else { Err(format!("instructions for a take: {}", failed.join("; "))) }
}

/// Counts each grid, and writes the stored figures anew.
pub fn store() -> Result<(), String> {
    fs::write(STORED, written(&counted()?)).map_err(|error| format!("{STORED}: {error}"))
}

/// Each grid of the gate with its count.
fn counted() -> Result<Vec<Figure>, String> {
    let count = |name: String, counted: Result<f64, String>| match counted {
        Ok(counted) => Ok((name, counted)),
        Err(why) => Err(format!("{name}: {why}")),
    };
    gated().iter().map(|plan| count(plan.name(), count_ours(plan))).collect()
}

/// A count beside the stored figure of that name.
fn judge(count: f64, stored: &[Figure], name: &str) -> (Judged, Option<f64>) {
    let figure = stored.iter().find(|(known, _)| known == name).map(|&(_, figure)| figure);
    let judged = match figure {
        None => Judged::NotStored,
        Some(figure) if count > figure * (1.0 + ALLOWED) => Judged::Above,
        Some(figure) if count < figure * (1.0 - ALLOWED) => Judged::Below,
        Some(_) => Judged::Holds,
    };
    (judged, figure)
}

/// What is said of it, and what can be done.
fn said(judged: &Judged) -> &'static str {
    match judged {
        Judged::Holds => "",
        Judged::Above => ": MORE THAN 3 % ABOVE",
        Judged::Below => ": more than 3 % below, the stored figure can be lowered by --store",
        Judged::NotStored => ": NOT STORED",
    }
}

/// The stored names that no grid of the gate has.
fn unknown(stored: &[Figure], counted: &[Figure]) -> Vec<String> {
    let missing = stored.iter().filter(|(name, _)| counted.iter().all(|(known, _)| known != name));
    missing.map(|(name, _)| format!("{name} is stored and not counted")).collect()
}

/// The figures of a file.
fn read(text: &str) -> Result<Vec<Figure>, String> {
    let figure = |line: &str| {
        let (name, figure) = line.rsplit_once(": ")?;
        Some((name.to_owned(), figure.parse().ok()?))
    };
    let lines = text.lines().filter(|line| !line.starts_with('#'));
    lines.map(|line| figure(line).ok_or_else(|| format!("{STORED} has a line without a figure: {line:?}"))).collect()
}

/// A file of figures.
fn written(figures: &[Figure]) -> String {
    let lines: String = figures.iter().map(|(name, figure)| format!("{name}: {figure:.1}\n")).collect();
    HEADING.to_owned() + &lines
}

#[cfg(test)]
mod tests {
    use super::*;

    #[test]
    fn three_in_a_hundred_are_allowed() {
        let stored = [("1, 8 by 8".to_owned(), 100.0)];
        let judged = |count| judge(count, &stored, "1, 8 by 8").0;
        assert_eq!(
            [102.9, 103.1, 97.1, 96.9].map(judged),
            [Judged::Holds, Judged::Above, Judged::Holds, Judged::Below]
        );
        assert_eq!(judge(100.0, &stored, "2, 8 by 8"), (Judged::NotStored, None));
    }

    #[test]
    fn a_written_file_reads_as_it_was() {
        let figures = vec![("1, 8 by 8".to_owned(), 99.5), ("2, 8 by 8: twice".to_owned(), 3.0)];
        assert_eq!(read(&written(&figures)), Ok(figures));
        assert!(read("1, 8 by 8 99.5").is_err());
    }

    #[test]
    fn a_stored_name_that_is_not_counted_is_told() {
        let [one, two] = ["1", "2"].map(|name| (name.to_owned(), 1.0));
        assert!(unknown(&[one.clone()], &[one.clone(), two.clone()]).is_empty());
        assert_eq!(unknown(&[one.clone(), two], &[one]).len(), 1);
    }
}
