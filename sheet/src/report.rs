//! What is said when a sheet is made.
use crate::formats::stand_ins::{StandIns, Unreached};
use crate::grids::Case;
use crate::numbers::{shortest, thousands};
use crate::options::Asked;
use crate::searches::Run;

/// The report on a run, a few lines.
pub fn on(case: &Case, run: &Run, asked: &Asked, stand_ins: &StandIns) -> String {
    let mut text = format!(
        "search {}, {}: {} takes in {:.3} ms, {} of {} cells reached\n",
        case.search.number(),
        case.name,
        thousands(run.sheet.takes),
        run.time.as_secs_f64() * 1000.0,
        thousands(run.reached as u64),
        thousands(run.sheet.cells.len() as u64)
    );
    if asked.out.is_some() {
        for line in Held::of(&run.sheet.cells).lines(case, asked, stand_ins) {
            text += &(line + "\n");
        }
    }
    text
}

/// How many cells of a sheet hold no number.
struct Held {
    nodata: usize,
    infinite: usize,
    minus_infinite: usize,
}

impl Held {
    fn of(cells: &[f32]) -> Held {
        let count = |is: fn(&f32) -> bool| cells.iter().filter(|cell| is(cell)).count();
        Held {
            nodata: count(|cell| cell.is_nan()),
            infinite: count(|cell| *cell == f32::INFINITY),
            minus_infinite: count(|cell| *cell == f32::NEG_INFINITY),
        }
    }

    /// How they are written, where there are any.
    fn lines(&self, case: &Case, asked: &Asked, stand_ins: &StandIns) -> Vec<String> {
        let nodata = shortest(stand_ins.nodata);
        let mut lines = Vec::new();
        if self.infinite > 0 {
            // Searches 1 to 3 hold infinity where there is no way, the others where a value or a sum is infinite.
            let are = match case.search.number() {
                2 => "can't be reached, ditches among them",
                1 | 3 => "can't be reached",
                _ => "hold infinity",
            };
            lines.push(match asked.unreached {
                Unreached::Nodata => format!("{} cells {are}: nodata, {nodata}, in the sheet", count(self.infinite)),
                Unreached::Infinity => format!("{} cells {are}: `inf` in the sheet", count(self.infinite)),
                Unreached::Number(number) => {
                    format!("{} cells {are}: {} in the sheet", count(self.infinite), shortest(number))
                }
            });
        }
        if self.minus_infinite > 0 && asked.unreached != Unreached::Infinity {
            lines.push(format!(
                "{} cells hold minus infinity: nodata, {nodata}, in the sheet",
                count(self.minus_infinite)
            ));
        }
        if self.nodata > 0 {
            let both = self.infinite > 0 && asked.unreached == Unreached::Nodata;
            let apart = if both { ", as well; --unreached NUMBER keeps them apart" } else { "" };
            lines.push(format!("{} cells are nodata: {nodata} in the sheet{apart}", count(self.nodata)));
        }
        lines
    }
}

fn count(cells: usize) -> String {
    thousands(cells as u64)
}
