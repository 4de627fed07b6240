//! Two programs on the same cases. A case that the grid file can hold goes to both as a file, and what they write is
//! compared byte for byte; a larger one goes to the oracle's builds by a call.
use std::collections::BTreeMap;

use case::{Answer, Case, ONE_NAN, Search, draw, gridfile};
use oracle::{Build, Reading, answer, answer_file};

use crate::damage::{damage, damaged};
use crate::generate::{Sizes, generate};
use crate::program::{self, TIME_LIMIT};
use crate::random::Random;

/// One of the two that are compared.
pub enum Side {
    Oracle(Build),
    Library(fn(&Case) -> Answer),
    /// A grid file goes in, an answer file comes out, in this process, or what was wrong with the call.
    Files(fn(&[u8]) -> Result<Vec<u8>, String>),
    /// A program's path, and words behind it that it is given.
    Program(String),
}

impl Side {
    /// `unchanged` and `counted` are the oracle's builds, run in this process; anything else is a program.
    pub fn named(name: &str) -> Side {
        match name {
            "unchanged" => Side::Oracle(Build::Unchanged),
            "counted" => Side::Oracle(Build::Counted),
            command => Side::Program(command.into()),
        }
    }

    fn file(&self, input: &[u8]) -> Result<Vec<u8>, String> {
        match self {
            Side::Oracle(build) => Ok(answer_file(input, *build)),
            Side::Library(answer) => Ok(gridfile::write_answer(&match gridfile::read(input) {
                Ok(case) => answer(&case),
                Err(gridfile::NotAFile) => Answer::Refused { number: 8, index: None },
            })),
            Side::Files(answer) => answer(input),
            Side::Program(command) => program::run(command, input, TIME_LIMIT),
        }
    }

    /// `None` for what takes files only.
    fn call(&self, case: &Case) -> Option<Answer> {
        match self {
            Side::Oracle(build) => Some(answer(case, *build, Reading::Document)),
            Side::Library(answer) => Some(answer(case)),
            Side::Files(_) | Side::Program(_) => None,
        }
    }
}

/// What a run of the comparison saw.
#[derive(Default)]
pub struct Seen {
    pub files: u64,
    pub damaged: u64,
    pub calls: u64,
    pub not_fed: u64,
    /// Of cases that were not damaged, which keep to the refusals of their search.
    pub statuses: Statuses,
    /// Of damaged files, by the kind of damage, which may have changed the search too.
    pub kinds: BTreeMap<&'static str, Statuses>,
    pub takes: u128,
}

/// How many answers had each status: 0 accepted, else the refusal's number.
pub type Statuses = BTreeMap<u8, u64>;

/// Runs both sides on the cases with these indices, some of them damaged as files, up to the first difference, which is
/// described.
pub fn compare(sides: &[Side; 2], search: Search, sizes: Sizes, seed: u64, count: u64) -> Result<Seen, String> {
    let mut seen = Seen::default();
    for index in 0..count {
        let case = generate(search, sizes, seed, index);
        let place = format!("search {}, seed {seed}, index {index}", search.number());
        match gridfile::write(&case) {
            Some(mut file) => {
                let random = &mut Random::new(!seed, index);
                let kind = random.chance(12).then(|| damage(random, &mut file));
                seen.files += 1;
                seen.answer(kind, &files(sides, &file).map_err(|what| format!("{place}\n{what}"))?);
            }
            None => match (sides[0].call(&case), sides[1].call(&case)) {
                (Some(first), Some(second)) => {
                    seen.calls += 1;
                    seen.answer(None, &first);
                    if let Some(what) = draw::difference(&case, &first, &second) {
                        return Err(format!("{place}\n{}", described(&case, &what, [&first, &second])));
                    }
                }
                _ => seen.not_fed += 1,
            },
        }
    }
    Ok(seen)
}

/// Runs both sides on damaged files only, up to the first difference, which is described with the least file that shows
/// one.
pub fn compare_damaged(sides: &[Side; 2], search: Search, seed: u64, count: u64) -> Result<Seen, String> {
    let mut seen = Seen::default();
    for index in 0..count {
        let (kind, file) = damaged(search, seed, index);
        seen.files += 1;
        let answer = files(sides, &file).map_err(|what| {
            let number = search.number();
            format!(
                "damaged file of search {number}, seed {seed}, index {index}, {kind}\n{what}{}",
                least(sides, &file)
            )
        })?;
        seen.answer(Some(kind), &answer);
    }
    Ok(seen)
}

impl Seen {
    fn answer(&mut self, kind: Option<&'static str>, answer: &Answer) {
        let status = match answer {
            Answer::Refused { number, .. } => *number,
            Answer::Accepted { takes, .. } => {
                self.takes += u128::from(*takes);
                0
            }
        };
        let statuses = match kind {
            None => &mut self.statuses,
            Some(kind) => self.kinds.entry(kind).or_default(),
        };
        *statuses.entry(status).or_default() += 1;
        self.damaged += u64::from(kind.is_some());
    }

    /// Of all cases, damaged or not.
    pub fn all(&self) -> Statuses {
        let mut all = self.statuses.clone();
        self.kinds.values().for_each(|statuses| add(&mut all, statuses));
        all
    }
}

pub fn add(sums: &mut Statuses, statuses: &Statuses) {
    for (status, count) in statuses {
        *sums.entry(*status).or_default() += count;
    }
}

/// The answer that both sides give the file.
fn files(sides: &[Side; 2], file: &[u8]) -> Result<Answer, String> {
    let input = || format!("input  {}\n", hex(file));
    let [first, second] = [sides[0].file(file), sides[1].file(file)];
    let [first, second] = [first.map_err(|what| input() + &what)?, second.map_err(|what| input() + &what)?];
    let case = gridfile::read(file).ok();
    let [a, b] = [gridfile::read_answer(&first), gridfile::read_answer(&second)];
    let both = || format!("{}first  {}\nsecond {}\n", input(), hex(&first), hex(&second));
    match (a, b, &case) {
        (Some(a), Some(b), Some(case)) if first != second => {
            let what = draw::difference(case, &a, &b).unwrap_or("the bytes, not what they say".into());
            Err(described(case, &what, [&a, &b]) + &both())
        }
        (Some(answer), ..) if first == second && keeps_form(&answer, &case) => Ok(answer),
        _ => Err(both()),
    }
}

/// Whether an answer to this case is of document 01's form; `None` is a file that is none. Each refusal has an index or
/// not, an accepted grid has the case's number of cells and no NaN but the one.
fn keeps_form(answer: &Answer, case: &Option<Case>) -> bool {
    let cells = |case: &Case| (case.size().0 * case.size().1) as usize;
    match (answer, case) {
        (Answer::Refused { number: 8, index: None }, None) => true,
        (Answer::Refused { number: 1..=5, index: None }, Some(_)) => true,
        (Answer::Refused { number: 6 | 7, index: Some(index) }, Some(case)) => (*index as usize) < cells(case),
        (Answer::Accepted { grid, .. }, Some(case)) => {
            let other_nan = |&bits: &u32| f32::from_bits(bits).is_nan() && bits != ONE_NAN;
            grid.len() == cells(case) && !grid.iter().any(other_nan)
        }
        _ => false,
    }
}

/// Describes the least file that still tells the sides apart and is this one with bytes left out. Programs are not asked
/// so often.
fn least(sides: &[Side; 2], file: &[u8]) -> String {
    if sides.iter().any(|side| matches!(side, Side::Program(_))) {
        return String::new();
    }
    let agree = |file: &[u8]| files(sides, file).is_ok();
    let mut least = file.to_vec();
    let mut step = file.len();
    while step > 0 {
        least = without(least, step, agree);
        step /= 2;
    }
    format!("least   {}\n", hex(&least))
}

/// The file without each stretch of so many bytes that no difference needs.
fn without(mut file: Vec<u8>, step: usize, agree: impl Fn(&[u8]) -> bool) -> Vec<u8> {
    let mut at = 0;
    while at + step <= file.len() {
        let shorter = [&file[..at], &file[at + step..]].concat();
        if agree(&shorter) {
            at += step;
        } else {
            file = shorter;
        }
    }
    file
}

fn described(case: &Case, what: &str, [first, second]: [&Answer; 2]) -> String {
    let drawn = draw::case(case);
    let [first, second] = [first, second].map(|answer| draw::answer(case, answer));
    format!("differs in {what}\n\n{drawn}\nfirst: {first}\nsecond: {second}")
}

fn hex(bytes: &[u8]) -> String {
    bytes.iter().map(|byte| format!("{byte:02x} ")).collect()
}
