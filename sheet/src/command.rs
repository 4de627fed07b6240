//! What each command does, from its words to the text that it prints.
use std::ffi::OsString;
use std::fs;
use std::path::{Path, PathBuf};

use lexopt::Arg::{Long, Short, Value};

use crate::formats::sheet_file;
use crate::formats::stand_ins::StandIns;
use crate::gridfile::case;
use crate::gridfile::fields;
use crate::grids::Case;
use crate::help;
use crate::options::{self, Asked, Command};
use crate::output::outlets::Outlet;
use crate::output::said::Said;
use crate::output::{self, Written, write_all};
use crate::{notes, picture, refusals, report, searches};

type Words = std::vec::IntoIter<OsString>;

/// Runs the command that these words are, without the program's name.
pub fn run(words: impl Iterator<Item = OsString>) -> Result<Said, String> {
    let mut words: Words = words.collect::<Vec<_>>().into_iter();
    match next_word(&mut words)?.as_str() {
        "--help" | "-h" | "help" => Ok(Said::Text(help::top())),
        "--version" | "-V" | "version" => Ok(Said::Text(help::version())),
        "case" => run_case(words),
        name => {
            let command = options::find_command(name)?;
            match options::read(command, words)? {
                Some(asked) => make_sheet(&asked),
                None => Ok(Said::Text(help::of_search(command))),
            }
        }
    }
}

fn next_word(words: &mut Words) -> Result<String, String> {
    let word = words.next().ok_or("a search is wanted; `sheet --help` lists them")?;
    Ok(word.to_string_lossy().into_owned())
}

fn make_sheet(asked: &Asked) -> Result<Said, String> {
    if asked.out.is_none() && asked.picture.is_none() {
        return Err("--out or --picture must say where the sheet goes".to_owned());
    }
    keep_inputs(asked)?;
    let case = read_case(asked)?;
    let run = searches::run(&case).map_err(|refusal| refusals::sentence(refusal, &case))?;
    let stand_ins = StandIns::of(&case.first().place, &run.sheet.cells, asked.unreached)?;
    let mut files = Vec::new();
    if let Some(path) = &asked.out {
        files.extend(sheet_file::of(path, &case.first().place, &run.sheet.cells, &stand_ins)?);
    }
    if let Some(path) = &asked.picture {
        files.push(Written { path: path.clone(), bytes: picture::draw(&case, &run)? });
    }
    write_all(&files)?;
    Ok(Said::report(report::on(&case, &run, asked, &stand_ins), &files))
}

/// Reads a case, and says what should be known about it.
fn read_case(asked: &Asked) -> Result<Case, String> {
    let case = Case::read(asked)?;
    for note in notes::on(&case, asked) {
        eprintln!("sheet: note: {note}");
    }
    Ok(case)
}

/// No file is written over an input, nor over the other output: that would be a slip, however they are spelled.
fn keep_inputs(asked: &Asked) -> Result<(), String> {
    let mut outlets = Vec::new();
    for path in asked.out.iter().chain(&asked.picture) {
        let outlet = Outlet::find(path).map_err(|error| output::cannot(path, error))?;
        if let Some((role, _)) = asked.grids.iter().find(|(_, input)| outlet.is_input(input)) {
            return Err(format!("{} is the file of --{}, and is not written over", output::name(path), role.name()));
        }
        outlets.push((path, outlet));
    }
    match &outlets[..] {
        [(out, one), (picture, other)] if one.is_same(other) => Err(same(out, picture)),
        _ => Ok(()),
    }
}

fn same(out: &Path, picture: &Path) -> String {
    if out == picture {
        format!("--out and --picture are both {}", out.display())
    } else {
        format!("--out {} and --picture {} are the same file", out.display(), picture.display())
    }
}

fn run_case(mut words: Words) -> Result<Said, String> {
    match words.next().as_ref().and_then(|word| word.to_str()) {
        Some("pack") => {
            let name = next_word(&mut words)?;
            if ["--help", "-h"].contains(&name.as_str()) {
                return Ok(Said::Text(help::CASE.to_owned()));
            }
            let command = options::find_command(&name)?;
            match options::read(command, words)? {
                Some(asked) => pack(&asked, command),
                None => Ok(Said::Text(help::of_pack(command))),
            }
        }
        Some("print") => print(words).map(Said::Text),
        Some("--help" | "-h") => Ok(Said::Text(help::CASE.to_owned())),
        _ => Err("`sheet case` wants `pack` or `print`; `sheet case --help` says more".to_owned()),
    }
}

fn pack(asked: &Asked, command: &Command) -> Result<Said, String> {
    if asked.picture.is_some() {
        return Err("a grid file has no picture".to_owned());
    }
    let path = asked.out.clone().ok_or("--out must say where the grid file goes")?;
    keep_inputs(asked)?;
    let bytes = fields::pack(&read_case(asked)?)?;
    let report = format!("{}: {} bytes for {}\n", output::name(&path), bytes.len(), command.name);
    let files = [Written { path, bytes }];
    write_all(&files)?;
    Ok(Said::report(report, &files))
}

fn print(words: Words) -> Result<String, String> {
    let (file, of) = print_words(words).map_err(|error| error.to_string())?;
    let Some(file) = file else { return Ok(help::CASE.to_owned()) };
    let read = |path: &Path| fs::read(path).map_err(|error| format!("{} can't be read: {error}", path.display()));
    let size = match of {
        Some(path) => {
            let size = case::size_of(&read(&path)?);
            Some(size.ok_or_else(|| format!("{} says no rows and columns", path.display()))?)
        }
        None => None,
    };
    case::print(&read(&file)?, size).map_err(|wrong| format!("{} {wrong}", file.display()))
}

/// The file to print, none where help is asked for, and the grid file that it answers.
fn print_words(words: Words) -> Result<(Option<PathBuf>, Option<PathBuf>), lexopt::Error> {
    let (mut file, mut of) = (None, None);
    let mut parser = lexopt::Parser::from_args(words);
    while let Some(word) = parser.next()? {
        match word {
            Short('h') | Long("help") => return Ok((None, None)),
            Long("of") => of = Some(parser.value()?.into()),
            Value(path) if file.is_none() => file = Some(path.into()),
            _ => return Err(word.unexpected()),
        }
    }
    if file.is_none() {
        return Err("`sheet case print` wants a file".into());
    }
    Ok((file, of))
}
