//! Document 01's grid file. Fields are a one-byte tag, a two-byte length and the content; numbers are little-endian.
use crate::{Answer, Case, Diagonals, Grid, Search};

const FLAGS: u8 = 0x01;
const SIZE: u8 = 0x02;
const NUMBERS: u8 = 0x03;
const TARGETS: u8 = 0x04;
const OBSTACLES: u8 = 0x05;
const TIMES: u8 = 0x06;
const VALUES: u8 = 0x07;
const STATUS: u8 = 0x10;
const INDEX: u8 = 0x11;
const TAKES: u8 = 0x12;
const GRID: u8 = 0x13;

const GRID_FIELD_MAX: usize = 4096;
const CELLS_MAX: u32 = 1024;

/// Refusal 8: the bytes are no grid file.
#[derive(Debug, PartialEq, Eq)]
pub struct NotAFile;

/// The fields one after the other, tags rising.
struct Fields<'a> {
    rest: &'a [u8],
}

impl<'a> Fields<'a> {
    /// The next field's content, which must have this tag.
    fn next(&mut self, tag: u8) -> Result<&'a [u8], NotAFile> {
        let [first, low, high, rest @ ..] = self.rest else { return Err(NotAFile) };
        let len = u16::from_le_bytes([*low, *high]).into();
        if *first != tag || rest.len() < len {
            return Err(NotAFile);
        }
        let (content, rest) = rest.split_at(len);
        self.rest = rest;
        Ok(content)
    }

    fn exactly<const LEN: usize>(&mut self, tag: u8) -> Result<[u8; LEN], NotAFile> {
        self.next(tag)?.try_into().map_err(|_| NotAFile)
    }

    fn bytes(&mut self, tag: u8) -> Result<Vec<u8>, NotAFile> {
        let content = self.next(tag)?;
        if content.len() > GRID_FIELD_MAX { Err(NotAFile) } else { Ok(content.to_vec()) }
    }

    fn floats(&mut self, tag: u8) -> Result<Vec<f32>, NotAFile> {
        let content = self.bytes(tag)?;
        let (words, []) = content.as_chunks() else { return Err(NotAFile) };
        Ok(words.iter().map(|&word| f32::from_le_bytes(word)).collect())
    }
}

/// The case that the bytes hold, or refusal 8. Each search has exactly its own fields, so the next tag is always known.
pub fn read(bytes: &[u8]) -> Result<Case, NotAFile> {
    let mut fields = Fields { rest: bytes };
    let [search, diagonals, adjacent] = fields.exactly(FLAGS)?;
    let [rows_low, rows_high, cols_low, cols_high] = fields.exactly(SIZE)?;
    let [c0, c1, c2, c3, l0, l1, l2, l3] = fields.exactly(NUMBERS)?;

    let search = Search::from_number(search).ok_or(NotAFile)?;
    let mut case = Case::new(search);
    case.diagonals = match (diagonals, search.has_diagonals()) {
        (0, _) => Diagonals::Include,
        (1, true) => Diagonals::Exclude,
        _ => return Err(NotAFile),
    };
    case.adjacent = match (adjacent, search.has_adjacent()) {
        (0, _) => false,
        (1, true) => true,
        _ => return Err(NotAFile),
    };
    case.cell_size = number([c0, c1, c2, c3], search.has_cell_size())?;
    case.limit = number([l0, l1, l2, l3], search.has_limit())?;

    let rows = u16::from_le_bytes([rows_low, rows_high]);
    let cols = u16::from_le_bytes([cols_low, cols_high]);
    if u32::from(rows) * u32::from(cols) > CELLS_MAX {
        return Err(NotAFile);
    }
    let (rows, cols) = (rows.into(), cols.into());
    if search.has_targets() {
        case.targets = Some(Grid { rows, cols, cells: fields.bytes(TARGETS)? });
    }
    if search.has_obstacles() {
        case.obstacles = Some(Grid { rows, cols, cells: fields.bytes(OBSTACLES)? });
    }
    if search.has_times() {
        case.times = Some(Grid { rows, cols, cells: fields.floats(TIMES)? });
    }
    if search.has_values() {
        case.values = Some(Grid { rows, cols, cells: fields.floats(VALUES)? });
    }
    if fields.rest.is_empty() { Ok(case) } else { Err(NotAFile) }
}

/// A number that the search has; zero bytes where it has none.
fn number(bytes: [u8; 4], used: bool) -> Result<f32, NotAFile> {
    if used || bytes == [0; 4] { Ok(f32::from_le_bytes(bytes)) } else { Err(NotAFile) }
}

/// The case as a grid file, or `None` where the file form can't say it: grids of different sizes, or too large.
pub fn write(case: &Case) -> Option<Vec<u8>> {
    let (rows, cols) = case.size();
    if case.grids().iter().any(|&(r, c, _)| (r, c) != (rows, cols)) {
        return None;
    }
    let (rows, cols) = (u16::try_from(rows).ok()?, u16::try_from(cols).ok()?);
    if u32::from(rows) * u32::from(cols) > CELLS_MAX {
        return None;
    }
    let mut file = Vec::new();
    let diagonals = (case.diagonals == Diagonals::Exclude).into();
    field(&mut file, FLAGS, &[case.search.number(), diagonals, case.adjacent.into()])?;
    field(&mut file, SIZE, &[rows.to_le_bytes(), cols.to_le_bytes()].concat())?;
    field(&mut file, NUMBERS, &[case.cell_size.to_le_bytes(), case.limit.to_le_bytes()].concat())?;
    for (tag, grid) in [(TARGETS, &case.targets), (OBSTACLES, &case.obstacles)] {
        if let Some(grid) = grid {
            grid_field(&mut file, tag, &grid.cells)?;
        }
    }
    for (tag, grid) in [(TIMES, &case.times), (VALUES, &case.values)] {
        if let Some(grid) = grid {
            let bytes: Vec<u8> = grid.cells.iter().flat_map(|cell| cell.to_le_bytes()).collect();
            grid_field(&mut file, tag, &bytes)?;
        }
    }
    Some(file)
}

fn grid_field(file: &mut Vec<u8>, tag: u8, content: &[u8]) -> Option<()> {
    if content.len() > GRID_FIELD_MAX { None } else { field(file, tag, content) }
}

fn field(file: &mut Vec<u8>, tag: u8, content: &[u8]) -> Option<()> {
    file.push(tag);
    file.extend(u16::try_from(content.len()).ok()?.to_le_bytes());
    file.extend(content);
    Some(())
}

/// What the program writes for an answer. An accepted file has at most 1,024 cells, so the grid always fits its field.
pub fn write_answer(answer: &Answer) -> Vec<u8> {
    let mut file = Vec::new();
    let fits = match answer {
        Answer::Refused { number, index } => {
            let index = index.map(u32::to_le_bytes);
            field(&mut file, STATUS, &[*number])
                .and_then(|()| index.map_or(Some(()), |at| field(&mut file, INDEX, &at)))
        }
        Answer::Accepted { takes, grid } => {
            let cells: Vec<u8> = grid.iter().flat_map(|cell| cell.to_le_bytes()).collect();
            field(&mut file, STATUS, &[0])
                .and_then(|()| field(&mut file, TAKES, &takes.to_le_bytes()))
                .and_then(|()| field(&mut file, GRID, &cells))
        }
    };
    fits.expect("an answer to a grid file fits the file form");
    file
}

/// The answer that a program wrote, or `None` where the bytes are no answer.
pub fn read_answer(bytes: &[u8]) -> Option<Answer> {
    let mut fields = Fields { rest: bytes };
    let [status] = fields.exactly(STATUS).ok()?;
    let answer = if status == 0 {
        let takes = u64::from_le_bytes(fields.exactly(TAKES).ok()?);
        let (words, []) = fields.next(GRID).ok()?.as_chunks() else { return None };
        Answer::Accepted { takes, grid: words.iter().map(|&word| u32::from_le_bytes(word)).collect() }
    } else {
        let index = if fields.rest.is_empty() { None } else { Some(u32::from_le_bytes(fields.exactly(INDEX).ok()?)) };
        Answer::Refused { number: status, index }
    };
    fields.rest.is_empty().then_some(answer)
}
