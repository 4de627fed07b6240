//! The legend beside the map: what the numbers are, their colours, and what else is on the map.
use search::Search;

use crate::grids::Case;
use crate::numbers::shortest;
use crate::picture::canvas::{Area, BLACK, Canvas};
use crate::picture::key::{Key, Range};
use crate::picture::letters;
use crate::picture::looks::Look;
use crate::picture::marks::{self, Targets};
use crate::picture::ramp;
use crate::picture::round;
use crate::picture::view::View;

const LEAST_WIDTH: usize = 208;
const RAMP_WIDTH: usize = 24;
const RAMP_HEIGHT: usize = 200;
const TICK: usize = 6;
/// About so many steps from the least to the greatest.
const STEPS: f64 = 5.0;
const SAMPLE: usize = 16;
const GAP: usize = 8;
/// From one line to the next, and the least from a number beside the ramp to the next.
const LINE: usize = 24;
const ROOM: usize = 18;
const DIAMOND: usize = 15;

/// The legend's parts from top to bottom.
pub struct Legend<'a> {
    parts: Vec<Part>,
    key: &'a Key,
}

/// A part of the legend.
enum Part {
    Words(String),
    Ramp(Vec<Tick>),
    Sample(Look, String),
    Target,
    Space,
}

/// A number beside the ramp, and how far down it is.
struct Tick {
    down: usize,
    label: String,
}

impl Legend<'_> {
    /// The legend of a map whose dots have these looks.
    pub fn new<'a>(case: &Case, view: &View, looks: &[Look], key: &'a Key) -> Legend<'a> {
        let mut parts = numbers(case, looks, key);
        parts.push(Part::Space);
        parts.extend(others(looks));
        parts.extend(targets(case, view));
        parts.extend(shared(view));
        Legend { parts, key }
    }

    /// The pixels that its widest part takes, and no fewer than most legends need, so that pictures of one stand have
    /// one size.
    pub fn width(&self) -> usize {
        self.parts.iter().map(Part::width).fold(LEAST_WIDTH, usize::max)
    }

    /// The pixels of all its parts.
    pub fn height(&self) -> usize {
        self.parts.iter().map(Part::height).sum()
    }

    /// Draws it with its corner at this pixel.
    pub fn draw(&self, canvas: &mut Canvas, x: usize, mut y: usize) {
        for part in &self.parts {
            part.draw(canvas, x, y, self.key);
            y += part.height();
        }
    }
}

/// What the numbers are.
fn caption(case: &Case) -> Vec<String> {
    match case.search {
        Search::DistancesUpTo | Search::DistanceWithObstacles => vec![format!("distance in {}", case.length_unit())],
        Search::TravelDistancesUpTo => vec!["travel time in the".to_owned(), "unit of the times".to_owned()],
        Search::ValueAtClosestTarget
        | Search::ValueAtClosestTravelTarget
        | Search::ValueAtClosestLessThanTravelTarget => vec!["value".to_owned()],
        Search::SumWithinTravelDistance => vec!["sum of the values".to_owned()],
        Search::SumTargetsWithinTravelDistance => vec!["sum of the amounts".to_owned()],
    }
}

/// What the numbers are, and their colours; nothing where there are none.
fn numbers(case: &Case, looks: &[Look], key: &Key) -> Vec<Part> {
    let mut parts = match key {
        Key::Nothing => Vec::new(),
        Key::Classes(classes) => {
            classes.iter().map(|class| Part::Sample(Look::Told(*class), shortest(class + 0.0))).collect()
        }
        Key::Ramp(range) => vec![Part::Ramp(ticks(range))],
    };
    if looks.iter().any(|look| matches!(look, Look::Told(number) if number.is_infinite())) {
        parts.push(Part::Sample(Look::Told(f32::INFINITY), "infinite".to_owned()));
    }
    if !parts.is_empty() {
        parts.splice(0..0, caption(case).into_iter().map(Part::Words));
    }
    parts
}

/// The dots without a number that are on the map.
fn others(looks: &[Look]) -> impl Iterator<Item = Part> {
    let names = [
        (Look::Obstacle, "obstacle"),
        (Look::Unreached, "not reached"),
        (Look::Nodata, "nodata"),
        (Look::NotChosen, "not chosen"),
    ];
    let seen = names.into_iter().filter(|(look, _)| looks.contains(look));
    seen.map(|(look, name)| Part::Sample(look, name.to_owned()))
}

/// How targets are marked, where there are any.
fn targets(case: &Case, view: &View) -> Option<Part> {
    match marks::targets(view, case) {
        Targets::None => None,
        Targets::Marked(_) => Some(Part::Target),
        Targets::TooMany => Some(Part::Words("targets not marked".to_owned())),
    }
}

/// Where cells share pixels, how many do.
fn shared(view: &View) -> Option<Part> {
    match (view.across.shared, view.down.shared) {
        (1, 1) => None,
        (across, 1) => Some(Part::Words(format!("{across} cells a pixel, across"))),
        (_, down) => Some(Part::Words(format!("{down} cells a pixel, down"))),
    }
}

/// The greatest number at the top, the least at the bottom, and between them the round ones that have room.
fn ticks(range: &Range) -> Vec<Tick> {
    let [least, greatest] = [range.least, range.greatest].map(f64::from);
    let down = |number: f64| ((greatest - number) / range.span() * (RAMP_HEIGHT - 1) as f64).round() as usize;
    let step = round::nearest(range.span() / STEPS, range.span());
    let first = (least / step).ceil();
    let round = (0..2 * STEPS as u32).map(|at| (first + f64::from(at)) * step);
    let has_room = |number: &f64| (ROOM..RAMP_HEIGHT - ROOM).contains(&down(*number));
    let mut numbers = vec![greatest, least];
    numbers.extend(round.filter(has_room));
    let labels = round::written_alike(&numbers, range.span());
    numbers.iter().zip(labels).map(|(number, label)| Tick { down: down(*number), label }).collect()
}

impl Part {
    /// From its top to that of the next part.
    fn height(&self) -> usize {
        match self {
            Part::Ramp(_) => RAMP_HEIGHT + LINE,
            Part::Space => GAP,
            _ => LINE,
        }
    }

    /// The pixels that it takes across.
    fn width(&self) -> usize {
        match self {
            Part::Words(words) => letters::width(words),
            Part::Ramp(ticks) => {
                let labels = ticks.iter().map(|tick| letters::width(&tick.label)).max().unwrap_or(0);
                RAMP_WIDTH + TICK + GAP + labels
            }
            Part::Sample(_, name) => SAMPLE + GAP + letters::width(name),
            Part::Target => SAMPLE + GAP + letters::width("target"),
            Part::Space => 0,
        }
    }

    /// Draws it with its corner at this pixel.
    fn draw(&self, canvas: &mut Canvas, x: usize, y: usize, key: &Key) {
        let sample = Area { x: x + 1, y: y + letters::MIDDLE - SAMPLE / 2 + 1, width: SAMPLE - 2, height: SAMPLE - 2 };
        match self {
            Part::Words(words) => canvas.text(x, y, words),
            Part::Ramp(ticks) => draw_ramp(canvas, x, y + GAP, ticks),
            Part::Sample(look, name) => {
                look.draw(canvas, sample, key);
                canvas.frame(sample);
                canvas.text(x + SAMPLE + GAP, y, name);
            }
            Part::Target => {
                marks::draw_diamonds(canvas, std::iter::once(sample), DIAMOND);
                canvas.text(x + SAMPLE + GAP, y, "target");
            }
            Part::Space => {}
        }
    }
}

/// The ramp with the greatest number's colour at its top.
fn draw_ramp(canvas: &mut Canvas, x: usize, y: usize, ticks: &[Tick]) {
    let bar = Area { x: x + 1, y, width: RAMP_WIDTH - 1, height: RAMP_HEIGHT };
    canvas.fill_with(bar, |_, line| ramp::colour(1.0 - (line - y) as f32 / (RAMP_HEIGHT - 1) as f32));
    canvas.frame(bar);
    for Tick { down, label } in ticks {
        canvas.fill(Area { x: x + RAMP_WIDTH, y: y + down, width: TICK, height: 1 }, BLACK);
        canvas.text(x + RAMP_WIDTH + TICK + GAP, y + down - letters::MIDDLE, label);
    }
}
