//! The words of the command line, and which search they ask for.
use std::ffi::OsString;
use std::path::PathBuf;

use haul::BarrierDiagonals;
use lexopt::Arg::{Long, Short, Value};
use search::{Role, Search};

use crate::formats::stand_ins::Unreached;
use crate::numbers::read_float;

/// A command that runs a search. Two of them, `distance` and `travel_distance`, stand for document 01's forms without a
/// limit; given one, they are the search with it.
pub struct Command {
    pub name: &'static str,
    pub search: Search,
    pub limit_may_be_left_out: bool,
}

const fn command(name: &'static str, search: Search, limit_may_be_left_out: bool) -> Command {
    Command { name, search, limit_may_be_left_out }
}

pub const COMMANDS: [Command; 10] = [
    command("distance", Search::DistancesUpTo, true),
    command("distances_up_to", Search::DistancesUpTo, false),
    command("distance_with_obstacles", Search::DistanceWithObstacles, false),
    command("travel_distance", Search::TravelDistancesUpTo, true),
    command("travel_distances_up_to", Search::TravelDistancesUpTo, false),
    command("value_at_closest_target", Search::ValueAtClosestTarget, false),
    command("value_at_closest_travel_target", Search::ValueAtClosestTravelTarget, false),
    command("value_at_closest_less_than_travel_target", Search::ValueAtClosestLessThanTravelTarget, false),
    command("sum_within_travel_distance", Search::SumWithinTravelDistance, false),
    command("sum_targets_within_travel_distance", Search::SumTargetsWithinTravelDistance, false),
];

/// The command of this name; hyphens count as underscores.
pub fn find_command(word: &str) -> Result<&'static Command, String> {
    let name = word.replace('-', "_");
    COMMANDS
        .iter()
        .find(|command| command.name == name)
        .ok_or_else(|| format!("`{word}` is no search; `sheet --help` lists them"))
}

/// The options as they were given.
#[derive(Default)]
struct Given {
    grids: Vec<(Role, PathBuf)>,
    limit: Option<Limit>,
    unreached: Option<Unreached>,
    nodata_as_0: Vec<Role>,
    diagonals: Option<BarrierDiagonals>,
    adjacent: bool,
    nodata_starts: bool,
    out: Option<PathBuf>,
    picture: Option<PathBuf>,
    help: bool,
}

/// A limit as it was given: in what the search counts in, or in metres.
#[derive(Clone, Copy, Debug, PartialEq)]
pub enum Limit {
    Number(f32),
    Metres(f64),
}

/// What is asked of a search: exactly what it takes, and where the answer goes.
#[derive(Debug)]
pub struct Asked {
    /// The command's own name: `travel_distance` stays that, though its search is `travel_distances_up_to`.
    pub name: &'static str,
    pub search: Search,
    /// In the order of the search's roles.
    pub grids: Vec<(Role, PathBuf)>,
    /// 0 in a search that has none.
    pub limit: Limit,
    /// `Include` in a search that has none.
    pub diagonals: BarrierDiagonals,
    pub adjacent: bool,
    pub nodata_starts: bool,
    /// The grids in which nodata counts as 0.
    pub nodata_as_0: Vec<Role>,
    pub unreached: Unreached,
    pub out: Option<PathBuf>,
    pub picture: Option<PathBuf>,
}

impl Asked {
    /// Whether nodata in the grid with this role counts as 0. In searches 5 and 6 a target byte of 255 would start; a
    /// planner's nodata means that nothing is known there, so it is no landing unless that is asked for.
    pub fn is_nodata_0(&self, role: Role) -> bool {
        let no_landing = role == Role::Targets && self.search.starts_at_nodata() && !self.nodata_starts;
        no_landing || self.nodata_as_0.contains(&role)
    }
}

/// What the words after a command's name ask for, or none where they ask for help.
pub fn read(command: &Command, words: impl Iterator<Item = OsString> + 'static) -> Result<Option<Asked>, String> {
    let given = read_words(words).map_err(|error| error.to_string())?;
    if given.help { Ok(None) } else { asked(command, given).map(Some) }
}

fn read_words(words: impl Iterator<Item = OsString> + 'static) -> Result<Given, lexopt::Error> {
    let mut given = Given::default();
    let mut parser = lexopt::Parser::from_args(words);
    while let Some(word) = parser.next()? {
        match word {
            Short('h') | Long("help") => given.help = true,
            Long("adjacent") => given.adjacent = true,
            Long("nodata-starts") => given.nodata_starts = true,
            Long("limit") => once(&mut given.limit, "limit", read_limit(parser.value()?)?)?,
            Long("limit-metres") => once(&mut given.limit, "limit", read_metres(parser.value()?)?)?,
            Long("unreached") => {
                once(&mut given.unreached, "unreached", Unreached::read(&parser.value()?.to_string_lossy())?)?;
            }
            Long("nodata-as-0") => given.nodata_as_0.push(read_role(parser.value()?)?),
            Long("diagonals") => once(&mut given.diagonals, "diagonals", read_diagonals(parser.value()?)?)?,
            Long("out") => once(&mut given.out, "out", parser.value()?.into())?,
            Long("picture") => once(&mut given.picture, "picture", parser.value()?.into())?,
            Long(name) => match Role::ALL.into_iter().find(|role| role.name() == name) {
                Some(role) => given.grids.push((role, parser.value()?.into())),
                None => return Err(word.unexpected()),
            },
            Short(_) | Value(_) => return Err(word.unexpected()),
        }
    }
    Ok(given)
}

/// An option that is given twice is a slip, and which of the two was meant can't be known.
fn once<T>(place: &mut Option<T>, name: &str, value: T) -> Result<(), String> {
    match place.replace(value) {
        None => Ok(()),
        Some(_) => Err(format!("--{name} is given twice")),
    }
}

fn read_limit(word: OsString) -> Result<Limit, String> {
    let word = word.to_string_lossy();
    let limit = read_float(&word).map(Limit::Number);
    limit.ok_or_else(|| format!("--limit {word} is no number that a float holds; `inf` is for none"))
}

fn read_metres(word: OsString) -> Result<Limit, String> {
    let word = word.to_string_lossy();
    let metres = word.parse().ok().filter(|metres: &f64| metres.is_finite()).map(Limit::Metres);
    metres.ok_or_else(|| format!("--limit-metres {word} is no length"))
}

fn read_role(word: OsString) -> Result<Role, String> {
    match Role::ALL.into_iter().find(|role| Some(role.name()) == word.to_str()) {
        Some(Role::Times) => Err("--nodata-as-0 is not for times: what can't be entered would cost nothing".to_owned()),
        Some(role) => Ok(role),
        None => {
            Err(format!("--nodata-as-0 wants the name of a grid, such as `obstacles`, not {}", word.to_string_lossy()))
        }
    }
}

fn read_diagonals(word: OsString) -> Result<BarrierDiagonals, String> {
    match word.to_str() {
        Some("include") => Ok(BarrierDiagonals::Include),
        Some("exclude") => Ok(BarrierDiagonals::Exclude),
        _ => Err(format!("--diagonals is `include` or `exclude`, not {}", word.to_string_lossy())),
    }
}

/// Holds what was given to what the search takes.
fn asked(command: &Command, given: Given) -> Result<Asked, String> {
    let has_obstacles = given.grids.iter().any(|(role, _)| *role == Role::Obstacles);
    let search =
        if command.name == "distance" && has_obstacles { Search::DistanceWithObstacles } else { command.search };
    refuse_what_is_not_taken(command, search, &given)?;
    if given.nodata_starts && given.nodata_as_0.contains(&Role::Targets) {
        return Err("--nodata-starts and --nodata-as-0 targets contradict each other".to_owned());
    }
    Ok(Asked {
        name: command.name,
        search,
        limit: limit_of(command, search, given.limit)?,
        diagonals: diagonals_of(command, search, given.diagonals)?,
        grids: grids_of(command, search, given.grids)?,
        adjacent: given.adjacent,
        nodata_starts: given.nodata_starts,
        nodata_as_0: given.nodata_as_0,
        unreached: given.unreached.unwrap_or_default(),
        out: given.out,
        picture: given.picture,
    })
}

fn refuse_what_is_not_taken(command: &Command, search: Search, given: &Given) -> Result<(), String> {
    let in_metres = matches!(given.limit, Some(Limit::Metres(_)));
    let options = [
        ("limit", given.limit.is_some(), search.has_limit()),
        ("limit-metres", in_metres, search == Search::DistancesUpTo),
        ("diagonals", given.diagonals.is_some(), search.has_diagonals()),
        ("adjacent", given.adjacent, search.has_adjacent()),
        ("nodata-starts", given.nodata_starts, search.starts_at_nodata()),
    ];
    let foreign_role = given.nodata_as_0.iter().find(|role| !search.roles().contains(role));
    match options.into_iter().find(|(_, given, taken)| *given && !taken) {
        None => match foreign_role {
            None => Ok(()),
            Some(role) => {
                Err(format!("{} takes no --{1}, so --nodata-as-0 {1} says nothing", command.name, role.name()))
            }
        },
        Some((option, ..)) => Err(format!("{} takes no --{option}{}", command.name, given_obstacles(command, search))),
    }
}

/// `distance` is another search where obstacles are given, and takes other options then.
fn given_obstacles(command: &Command, search: Search) -> &'static str {
    match (command.name, search.has_obstacles()) {
        ("distance", true) => " with obstacles",
        ("distance", false) => " without obstacles",
        _ => "",
    }
}

fn limit_of(command: &Command, search: Search, given: Option<Limit>) -> Result<Limit, String> {
    match given {
        Some(limit) => Ok(limit),
        None if !search.has_limit() => Ok(Limit::Number(0.0)),
        None if command.limit_may_be_left_out => Ok(Limit::Number(f32::INFINITY)),
        None => Err(format!("{} wants --limit", command.name)),
    }
}

/// There is no choice that is right unless it is said: a route depends on it.
fn diagonals_of(
    command: &Command,
    search: Search,
    given: Option<BarrierDiagonals>,
) -> Result<BarrierDiagonals, String> {
    match given {
        Some(diagonals) => Ok(diagonals),
        None if !search.has_diagonals() => Ok(BarrierDiagonals::Include),
        None => Err(format!(
            "{}{} wants --diagonals: `exclude` if a machine can't go between two obstacles that meet at a corner, \
             `include` if it can",
            command.name,
            given_obstacles(command, search)
        )),
    }
}

/// The search's grids in its order, none lacking and none left over.
fn grids_of(
    command: &Command,
    search: Search,
    mut given: Vec<(Role, PathBuf)>,
) -> Result<Vec<(Role, PathBuf)>, String> {
    let mut grids = Vec::new();
    for role in search.roles() {
        let at = given.iter().position(|(other, _)| other == role);
        grids.push(given.remove(at.ok_or_else(|| format!("{} wants --{}", command.name, role.name()))?));
    }
    match given.first() {
        None => Ok(grids),
        Some((role, _)) if search.roles().contains(role) => Err(format!("--{} is given twice", role.name())),
        Some((role, _)) => Err(format!("{} takes no --{}", command.name, role.name())),
    }
}
