//! Instructions of a side on one grid, counted by callgrind.
//!
//! This program starts itself under valgrind for one call of one side. Callgrind collects from the entry of that call's
//! function to its return, so that making the grid and reading the answer are not counted.
use std::path::Path;
use std::process::Command;
use std::{env, fs, process};

use library::exports::Lent;

use crate::plan::Plan;
use crate::sides::{Outcome, Rusts, Units, expected, hash_of, lent_call};

/// How glibc fills memory depends on the processor, and `rep stosb` counts as one instruction for each byte. Without what
/// is named here it fills alike everywhere, 16 bytes an instruction.
const FILLS: (&str, &str) = ("GLIBC_TUNABLES", "glibc.cpu.hwcaps=-ERMS,-FSRM,-AVX2,-AVX_Fast_Unaligned_Load,-SSSE3");

/// A grid with the instructions of each side.
#[derive(Debug)]
pub struct Counted {
    pub plan: Plan,
    pub takes: u64,
    pub rust: u64,
    pub one_unit: u64,
    pub lent: u64,
}

#[derive(Clone, Copy, Debug, PartialEq, Eq)]
pub enum Side {
    Rust,
    OneUnit,
    Lent,
}

impl Side {
    pub const ALL: [Side; 3] = [Side::Rust, Side::OneUnit, Side::Lent];

    /// The word for it on the command line.
    pub fn word(self) -> &'static str {
        match self {
            Side::Rust => "rust",
            Side::OneUnit => "one-unit",
            Side::Lent => "lent",
        }
    }

    /// The function of its call.
    fn function(self) -> &'static str {
        match self {
            Side::Rust | Side::OneUnit => "*sides::*rust_call*",
            Side::Lent => "*sides::lent_call*",
        }
    }
}

/// All sides on a grid.
pub fn count(plan: &Plan) -> Result<Counted, String> {
    let expected = expected(&plan.case());
    let [rust, one_unit, lent] = Side::ALL.map(|side| count_side(plan, side, expected));
    Ok(Counted { plan: plan.clone(), takes: expected.takes, rust: rust?, one_unit: one_unit?, lent: lent? })
}

/// Ours on a grid: the instructions for a take.
pub fn count_ours(plan: &Plan) -> Result<f64, String> {
    let expected = expected(&plan.case());
    Ok(count_side(plan, Side::Lent, expected)? as f64 / expected.takes as f64)
}

/// One side on a grid. An answer that differs is an error; the Rust does not know its takes.
fn count_side(plan: &Plan, side: Side, expected: Outcome) -> Result<u64, String> {
    let (instructions, outcome) = under_callgrind(plan, side)?;
    let takes_agree = side != Side::Lent || outcome.takes == expected.takes;
    if outcome.hash != expected.hash || !takes_agree {
        return Err(format!("{side:?} gives {outcome:x?}, the counting build {expected:x?}"));
    }
    Ok(instructions)
}

/// What the started program does: one call, whose outcome it prints.
pub fn one_call(plan: &Plan, side: Side) {
    let case = plan.case();
    let rust = |units| Outcome { takes: 0, hash: hash_of(Rusts::of(&case).rust_call(units).cells()) };
    let outcome = match side {
        Side::Rust => rust(Units::Sixteen),
        Side::OneUnit => rust(Units::One),
        Side::Lent => {
            let mut lent = Lent::new(case.search, plan.cells());
            Outcome { takes: lent_call(&case, &mut lent), hash: hash_of(&lent.answer) }
        }
    };
    println!("{} {}", outcome.takes, outcome.hash);
}

/// One call of a side: its instructions, and what it printed.
fn under_callgrind(plan: &Plan, side: Side) -> Result<(u64, Outcome), String> {
    let profile = env::temp_dir().join(format!("bench-{}.callgrind", process::id()));
    let this = env::current_exe().map_err(|error| error.to_string())?;
    let output = Command::new("valgrind")
        .args(["--tool=callgrind", "--quiet"])
        .arg(format!("--toggle-collect={}", side.function()))
        .arg(format!("--callgrind-out-file={}", profile.display()))
        .arg(this)
        .args(["call", side.word(), &plan.name()])
        .env(FILLS.0, FILLS.1)
        .output()
        .map_err(|error| format!("valgrind: {error}"))?;
    if !output.status.success() {
        return Err(String::from_utf8_lossy(&output.stderr).into_owned());
    }
    let instructions = collected(&profile)?;
    fs::remove_file(&profile).map_err(|error| error.to_string())?;
    let words = String::from_utf8_lossy(&output.stdout).into_owned();
    let numbers: Vec<u64> = words.split_whitespace().filter_map(|word| word.parse().ok()).collect();
    let [takes, hash] = numbers[..] else { return Err(format!("no outcome but {words:?}")) };
    Ok((instructions, Outcome { takes, hash }))
}

/// The total of a callgrind profile, which is not 0: else the call's function was not found.
fn collected(profile: &Path) -> Result<u64, String> {
    let text = fs::read_to_string(profile).map_err(|error| format!("{}: {error}", profile.display()))?;
    let total = text.lines().find_map(|line| line.strip_prefix("totals: ")).and_then(|total| total.trim().parse().ok());
    total.filter(|&instructions| instructions > 0).ok_or_else(|| "callgrind collected nothing".into())
}
