//! The tables, in markdown: one for each question.
use std::process::Command;
use std::time::Duration;
use std::{env, fs};

use crate::clock::Spent;
use crate::goals::{GROUPS, Group, group};
use crate::instructions::Counted;
use crate::plan::Table;
use crate::served::Memory;
use crate::sides::Units::{One, Sixteen};
use crate::times::{Timed, Way};

/// The command, the processor and its cores, the Rust compiler, the date.
pub fn heading() {
    let words: String = env::args().skip(1).map(|word| format!(" {}", quoted(&word))).collect();
    let processors = fs::read_to_string("/proc/cpuinfo").unwrap_or_default();
    let models: Vec<&str> = processors.lines().filter_map(|line| line.strip_prefix("model name\t: ")).collect();
    let model = models.first().unwrap_or(&"unknown processor");
    println!(
        "`bench/run{words}`: {model}, {} cores; {}; {}.",
        models.len(),
        said("rustc", "--version"),
        said("date", "+%F")
    );
}

/// A word as it is typed.
fn quoted(word: &str) -> String {
    if word.contains(' ') { format!("\"{word}\"") } else { word.to_owned() }
}

/// What a program writes for one word.
fn said(program: &str, word: &str) -> String {
    let output = Command::new(program).arg(word).output();
    output.map_or_else(|_| format!("no {program}"), |output| String::from_utf8_lossy(&output.stdout).trim().to_owned())
}

/// All tables of times.
pub fn times(timed: &[Timed]) {
    let (growth, others): (Vec<&Timed>, Vec<&Timed>) = timed.iter().partition(|row| row.plan.table == Table::Growth);
    let columns =
        ["grids", "how many", "ratio to the Rust", "goal", "missed by", "ratio to one unit", "goal", "missed by"];
    table("Goals", &columns, GROUPS.iter().filter_map(|group| goals_row(group, timed)));
    let columns = ["search and grid", "takes", "Rust", "ours, lent", "ratio", "goal", "ns a take: Rust", "ours, lent"];
    let of = |memory| others.iter().filter(move |row| group(&row.plan).memory == memory);
    table("Beside the Rust as cargo builds it", &columns, of(Memory::Cold).map(|row| cargo_row(row)));
    table("Beside the Rust as cargo builds it, warm", &columns, of(Memory::Warm).map(|row| cargo_row(row)));
    let columns = ["search and grid", "Rust", "Rust in one unit", "ours, lent", "ratio to one unit", "goal"];
    table("Beside the Rust in one codegen unit", &columns, of(Memory::Cold).map(|row| one_unit_row(row)));
    table("Beside the Rust in one codegen unit, warm", &columns, of(Memory::Warm).map(|row| one_unit_row(row)));
    let columns =
        ["search and grid", "Rust", "Rust, warm", "one unit, warm", "ours, lent", "ratio to warm", "to one unit, warm"];
    table("What warm memory brings the Rust", &columns, others.iter().map(|row| memory_row(row)));
    let columns = ["search and grid", "ours, lent", "ours, allocating", "ratio to the Rust", "to one unit"];
    table("Ours when it allocates", &columns, others.iter().map(|row| allocating_row(row)));
    let columns = [
        "search and grid",
        "takes a cell",
        "ns a cell: Rust",
        "one unit",
        "ours, lent",
        "ratio, of its goal",
        "to one unit, of its goal",
    ];
    table("Growth", &columns, growth.iter().map(|row| growth_row(row)));
}

/// The table of instructions.
pub fn instructions(counted: &[Counted]) {
    let columns = ["search and grid", "takes", "Rust", "Rust in one unit", "ours, lent", "ratio", "to one unit"];
    table("Instructions for a take", &columns, counted.iter().map(instructions_row));
}

/// A heading and a table; nothing where there are no rows.
fn table<const N: usize>(heading: &str, columns: &[&str; N], rows: impl Iterator<Item = [String; N]>) {
    let lines: Vec<String> = rows.map(|fields| format!("| {} |", fields.join(" | "))).collect();
    if !lines.is_empty() {
        println!("\n### {heading}\n\n| {} |\n|{}\n{}", columns.join(" | "), "---|".repeat(N), lines.join("\n"));
    }
}

/// The grids of a group: how many, the span of each ratio, its goal, and how many miss that.
fn goals_row(of: &Group, timed: &[Timed]) -> Option<[String; 8]> {
    let grids: Vec<&Timed> = timed.iter().filter(|row| group(&row.plan) == of).collect();
    let judged = |rust, goal: Option<f64>| {
        let mut ratios: Vec<f64> = grids.iter().map(|row| row.ratio(Way::Lent, rust)).collect();
        ratios.sort_by(f64::total_cmp);
        let span = format!("{:.2} to {:.2}", ratios.first()?, ratios.last()?);
        let Some(goal) = goal else { return Some([span, "none".into(), String::new()]) };
        let missed = ratios.iter().filter(|&&ratio| ratio > goal).count();
        Some([span, format!("{goal:.2}"), if missed == 0 { "none".into() } else { format!("**{missed}**") }])
    };
    let ([span, goal, missed], [one_span, one_goal, one_missed]) =
        (judged(of.rust(Sixteen), Some(of.cargo))?, judged(of.rust(One), of.one_unit)?);
    Some([of.name.into(), grids.len().to_string(), span, goal, missed, one_span, one_goal, one_missed])
}

/// A grid beside the Rust as cargo builds it.
fn cargo_row(of: &Timed) -> [String; 8] {
    let group = group(&of.plan);
    let way = group.rust(Sixteen);
    let [rust, lent] = [way, Way::Lent].map(|way| milliseconds(of.of(way)));
    let (ratio, goal) = (ratio(of, Way::Lent, way), goal(of, way, Some(group.cargo)));
    let a_take = |way| format!("{:.1}", nanoseconds(of.of(way).processor) / of.takes as f64);
    [of.plan.name(), grouped(of.takes), rust, lent, ratio, goal, a_take(way), a_take(Way::Lent)]
}

/// A grid beside the Rust in one codegen unit.
fn one_unit_row(of: &Timed) -> [String; 6] {
    let group = group(&of.plan);
    let way = group.rust(One);
    let [rust, one, lent] = [group.rust(Sixteen), way, Way::Lent].map(|way| milliseconds(of.of(way)));
    [of.plan.name(), rust, one, lent, ratio(of, Way::Lent, way), goal(of, way, group.one_unit)]
}

/// A grid beside the Rust that finds its memory mapped.
fn memory_row(of: &Timed) -> [String; 7] {
    let [cold, warm, one, lent] =
        [Way::RUST, Way::WARM, Way::WARM_ONE_UNIT, Way::Lent].map(|way| milliseconds(of.of(way)));
    let [to_warm, to_one] = [Way::WARM, Way::WARM_ONE_UNIT].map(|way| ratio(of, Way::Lent, way));
    [of.plan.name(), cold, warm, one, lent, to_warm, to_one]
}

/// A grid through the function that allocates.
fn allocating_row(of: &Timed) -> [String; 5] {
    let [lent, allocating] = [Way::Lent, Way::Allocating].map(|way| milliseconds(of.of(way)));
    let [to_rust, to_one] = [Way::RUST, Way::ONE_UNIT].map(|way| ratio(of, Way::Allocating, way));
    [of.plan.name(), lent, allocating, to_rust, to_one]
}

/// A grid of those from small to large, for a cell.
fn growth_row(of: &Timed) -> [String; 7] {
    let cells = of.plan.cells() as f64;
    let takes = format!("{:.2}", of.takes as f64 / cells);
    let a_cell = |way| format!("{:.1}", nanoseconds(of.of(way).processor) / cells);
    let [rust, one, lent] = [Way::RUST, Way::ONE_UNIT, Way::Lent].map(a_cell);
    let group = group(&of.plan);
    let judged = |rust, of_group| format!("{} of {}", ratio(of, Way::Lent, rust), goal(of, rust, of_group));
    let (to_rust, to_one) = (judged(Way::RUST, Some(group.cargo)), judged(Way::ONE_UNIT, group.one_unit));
    [of.plan.name(), takes, rust, one, lent, to_rust, to_one]
}

/// A grid's instructions for a take.
fn instructions_row(of: &Counted) -> [String; 7] {
    let [rust, one, lent] =
        [of.rust, of.one_unit, of.lent].map(|counted| format!("{:.0}", counted as f64 / of.takes as f64));
    let [to_rust, to_one] = [of.rust, of.one_unit].map(|rust| format!("{:.2}", of.lent as f64 / rust as f64));
    [of.plan.name(), grouped(of.takes), rust, one, lent, to_rust, to_one]
}

/// The goal, and whether it is missed.
fn goal(of: &Timed, rust: Way, goal: Option<f64>) -> String {
    let Some(goal) = goal else { return "none".into() };
    if of.ratio(Way::Lent, rust) <= goal { format!("{goal:.2}") } else { format!("{goal:.2} **missed**") }
}

/// One way's processor time as a part of another's.
fn ratio(of: &Timed, ours: Way, rust: Way) -> String {
    format!("{:.2}", of.ratio(ours, rust))
}

/// Processor time, and in brackets wall time.
fn milliseconds(spent: Spent) -> String {
    format!("{:.2} ({:.2})", nanoseconds(spent.processor) / 1e6, nanoseconds(spent.wall) / 1e6)
}

/// A time as a number.
fn nanoseconds(time: Duration) -> f64 {
    time.as_secs_f64() * 1e9
}

/// A number with a comma at each thousand.
fn grouped(number: u64) -> String {
    if number < 1000 { number.to_string() } else { format!("{},{:03}", grouped(number / 1000), number % 1000) }
}
