//! The file form's edges: what is refusal 8, what goes on to the library, and which refusal comes first.
use case::{Answer, gridfile};
use oracle::{Build, answer_file};

struct File {
    flags: [u8; 3],
    size: [u16; 2],
    numbers: [f32; 2],
    grids: Vec<(u8, Vec<u8>)>,
}

impl File {
    fn bytes(&self) -> Vec<u8> {
        let [rows, cols] = self.size.map(u16::to_le_bytes);
        let [cell_size, limit] = self.numbers.map(f32::to_le_bytes);
        let mut file = field(1, &self.flags);
        file.extend(field(2, &[rows, cols].concat()));
        file.extend(field(3, &[cell_size, limit].concat()));
        self.grids.iter().for_each(|(tag, content)| file.extend(field(*tag, content)));
        file
    }

    fn answer(&self) -> Vec<u8> {
        answer_file(&self.bytes(), Build::Unchanged)
    }

    fn status(&self) -> u8 {
        self.answer()[3]
    }
}

fn field(tag: u8, content: &[u8]) -> Vec<u8> {
    let [low, high] = (content.len() as u16).to_le_bytes();
    [&[tag, low, high], content].concat()
}

fn floats(cells: &[f32]) -> Vec<u8> {
    cells.iter().flat_map(|cell| cell.to_le_bytes()).collect()
}

/// Search 1 on cells that are all 0.
fn plain(rows: u16, cols: u16, cells: usize) -> File {
    File { flags: [1, 0, 0], size: [rows, cols], numbers: [1.0, 9.0], grids: vec![(4, vec![0; cells])] }
}

/// Search 7 on two cells.
fn sums(times: [f32; 2], limit: f32) -> File {
    let grids = vec![(4, vec![1, 0]), (6, floats(&times)), (7, floats(&[7.0, 9.0]))];
    File { flags: [7, 0, 0], size: [1, 2], numbers: [0.0, limit], grids }
}

#[test]
fn a_grid_field_of_another_length_goes_on_and_is_refusal_3() {
    assert_eq!(plain(2, 2, 3).status(), 3);
    assert_eq!(plain(2, 2, 4096).status(), 3);
    assert_eq!(plain(2, 2, 4097).status(), 8);
    assert_eq!(
        File { grids: vec![(4, vec![1, 0]), (6, vec![0; 7])], flags: [3, 0, 0], ..sums([1.0; 2], 9.0) }.status(),
        8
    );
}

#[test]
fn sizes_of_the_file() {
    assert_eq!(plain(0, 32_768, 0).status(), 1);
    assert_eq!(plain(0, 32_767, 0).answer(), [0x10, 1, 0, 0, 0x12, 8, 0, 0, 0, 0, 0, 0, 0, 0, 0, 0x13, 0, 0]);
    assert_eq!(plain(1, 32_768, 0).status(), 8);
    assert_eq!(plain(65_535, 65_535, 0).status(), 8);
    assert_eq!(plain(32, 32, 1024).status(), 0);
    assert_eq!(plain(41, 25, 1025).status(), 8);
}

#[test]
fn an_empty_grid_is_refused_for_its_numbers_all_the_same() {
    assert_eq!(plain(0, 3, 1).status(), 3);
    assert_eq!(File { numbers: [0.0, 9.0], ..plain(0, 3, 0) }.status(), 4);
    assert_eq!(File { numbers: [1.0, f32::NAN], ..plain(0, 3, 0) }.status(), 5);
}

#[test]
fn what_a_search_does_not_have_is_zero_bytes() {
    let unused = |flags, numbers| File { flags, numbers, ..sums([1.0; 2], 9.0) }.status();
    assert_eq!(unused([7, 0, 1], [0.0, 9.0]), 0);
    assert_eq!(unused([7, 0, 1], [-0.0, 9.0]), 8);
    assert_eq!(unused([7, 1, 0], [0.0, 9.0]), 8);
    assert_eq!(unused([7, 0, 2], [0.0, 9.0]), 8);
    assert_eq!(unused([5, 0, 0], [0.0, 0.0]), 0);
    assert_eq!(unused([5, 0, 0], [0.0, -0.0]), 8);
    assert_eq!(unused([0, 0, 0], [0.0, 0.0]), 8);
    assert_eq!(unused([9, 0, 0], [0.0, 0.0]), 8);
    let grids = vec![(4, vec![1]), (5, vec![0])];
    let obstacles = |numbers| File { flags: [2, 0, 0], size: [1, 1], numbers, grids: grids.clone() }.status();
    assert_eq!(obstacles([1.0, 0.0]), 0);
    assert_eq!(obstacles([1.0, -0.0]), 8);
    assert_eq!(obstacles([1.0, 9.0]), 8);
}

#[test]
fn tags_rise_and_are_the_searchs_own() {
    let with = |grids| File { grids, ..sums([1.0; 2], 9.0) }.status();
    let [mask, times, values] = [(4, vec![1, 0]), (6, floats(&[1.0; 2])), (7, floats(&[7.0, 9.0]))];
    assert_eq!(with(vec![mask.clone(), times.clone(), values.clone()]), 0);
    assert_eq!(with(vec![mask.clone(), values.clone(), times.clone()]), 8);
    assert_eq!(with(vec![mask.clone(), times.clone()]), 8);
    assert_eq!(with(vec![mask.clone(), mask.clone(), times.clone(), values.clone()]), 8);
    assert_eq!(with(vec![mask.clone(), (5, vec![0, 0]), times.clone(), values.clone()]), 8);
    assert_eq!(with(vec![mask, times, values, (0, vec![])]), 8);
}

#[test]
fn the_lowest_refusal_that_applies() {
    assert_eq!(sums([-1.0, 1.0], -0.0).status(), 5);
    assert_eq!(sums([-1.0, 1.0], f32::NAN).status(), 5);
    assert_eq!(sums([1.0, 1.0], f32::from_bits(1)).answer(), [0x10, 1, 0, 7, 0x11, 4, 0, 0, 0, 0, 0]);
    assert_eq!(sums([1.0, f32::NEG_INFINITY], 9.0).answer(), [0x10, 1, 0, 6, 0x11, 4, 0, 1, 0, 0, 0]);
    assert_eq!(sums([-0.0, f32::NAN], 9.0).status(), 0);
    assert_eq!(sums([-f32::NAN, 1.0], 9.0).status(), 0);
}

#[test]
fn a_file_that_is_read_is_written_again() {
    for file in [plain(2, 2, 4), plain(2, 2, 3), plain(0, 32_768, 0), sums([1.0, f32::NAN], 9.0)] {
        let case = gridfile::read(&file.bytes()).expect("a grid file");
        assert_eq!(gridfile::write(&case), Some(file.bytes()));
    }
}

#[test]
fn an_answer_with_a_cut_index_is_none() {
    let refused = [field(0x10, &[6]), field(0x11, &7u32.to_le_bytes())].concat();
    assert_eq!(gridfile::read_answer(&refused), Some(Answer::Refused { number: 6, index: Some(7) }));
    assert_eq!(gridfile::read_answer(&field(0x10, &[3])), Some(Answer::Refused { number: 3, index: None }));
    assert_eq!(gridfile::read_answer(&[field(0x10, &[6]), field(0x11, &[1, 2])].concat()), None);
    assert_eq!(gridfile::read_answer(&[refused, vec![0]].concat()), None);
}
