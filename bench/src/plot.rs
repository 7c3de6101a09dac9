//! Two drawings as SVG: the ratios of all workloads, and growth. Axes are logarithmic.

use crate::library::Who;
use crate::{Measured, Results, Spread};
use std::fmt::Write as _;

const INK: &str = "#222";
const GRID: &str = "#ddd";
const COLOURS: [&str; 3] = ["#0b6e99", "#c2410c", "#4d7c0f"];

struct Drawing {
    width: f64,
    height: f64,
    body: String,
}

impl Drawing {
    fn new(width: f64, height: f64) -> Self {
        Drawing { width, height, body: String::new() }
    }

    fn line(&mut self, from: (f64, f64), to: (f64, f64), colour: &str, width: f64, dashed: bool) {
        let dash = if dashed { " stroke-dasharray=\"5 4\"" } else { "" };
        let ((x1, y1), (x2, y2)) = (from, to);
        let _ = writeln!(
            self.body,
            "<line x1=\"{x1:.1}\" y1=\"{y1:.1}\" x2=\"{x2:.1}\" y2=\"{y2:.1}\" stroke=\"{colour}\" stroke-width=\"{width}\"{dash}/>"
        );
    }

    fn text(&mut self, at: (f64, f64), anchor: &str, size: f64, words: &str) {
        let (x, y) = at;
        let _ = writeln!(self.body, "<text x=\"{x:.1}\" y=\"{y:.1}\" text-anchor=\"{anchor}\" font-size=\"{size}\">{words}</text>");
    }

    /// One of three marks: a disc, a square, a triangle.
    fn mark(&mut self, which: usize, at: (f64, f64), hollow: bool) {
        let (x, y) = at;
        let colour = COLOURS[which];
        let fill = if hollow { "white" } else { colour };
        let style = format!("fill=\"{fill}\" stroke=\"{colour}\" stroke-width=\"1.2\"");
        let _ = match which {
            0 => writeln!(self.body, "<circle cx=\"{x:.1}\" cy=\"{y:.1}\" r=\"3.4\" {style}/>"),
            1 => writeln!(self.body, "<rect x=\"{:.1}\" y=\"{:.1}\" width=\"6\" height=\"6\" {style}/>", x - 3.0, y - 3.0),
            _ => {
                let (left, right, top, bottom) = (x - 4.0, x + 4.0, y - 4.0, y + 3.0);
                writeln!(self.body, "<polygon points=\"{left:.1},{bottom:.1} {right:.1},{bottom:.1} {x:.1},{top:.1}\" {style}/>")
            }
        };
    }

    fn svg(self) -> String {
        let (w, h) = (self.width, self.height);
        format!(
            "<svg xmlns=\"http://www.w3.org/2000/svg\" width=\"{w}\" height=\"{h}\" viewBox=\"0 0 {w} {h}\" \
             font-family=\"sans-serif\" fill=\"{INK}\">\n<rect width=\"{w}\" height=\"{h}\" fill=\"white\"/>\n{}</svg>\n",
            self.body
        )
    }
}

/// A logarithmic axis: values from low to high are placed between two ends.
struct Axis {
    low: f64,
    high: f64,
    from: f64,
    to: f64,
}

impl Axis {
    /// Around the values, with a little room at both ends.
    fn around(values: impl Iterator<Item = f64> + Clone, from: f64, to: f64) -> Axis {
        let least = values.clone().fold(f64::INFINITY, f64::min);
        let most = values.fold(0.0, f64::max);
        let room = (most / least).powf(0.04);
        Axis { low: least / room, high: most * room, from, to }
    }

    fn place(&self, value: f64) -> f64 {
        self.from + (self.to - self.from) * (value / self.low).ln() / (self.high / self.low).ln()
    }

    /// Powers of ten; between them also 2 and 5 where there is room for their labels.
    fn ticks(&self) -> Vec<f64> {
        let decades = (self.high / self.low).log10();
        let parts: &[f64] = if (self.to - self.from).abs() / decades > 130.0 { &[1.0, 2.0, 5.0] } else { &[1.0] };
        steps(parts).into_iter().filter(|s| *s >= self.low && *s <= self.high).collect()
    }
}

fn steps(parts: &[f64]) -> Vec<f64> {
    (-6..10).flat_map(|e| parts.iter().map(move |p| p * 10f64.powi(e))).collect()
}

fn label(value: f64) -> String {
    if value >= 1e4 {
        crate::report::thousands(value.round() as u64)
    } else if value >= 1.0 {
        format!("{value:.0}")
    } else {
        format!("{value:.6}").trim_end_matches('0').to_string()
    }
}

// ---- ratios

/// A row: its name, and for each of plain Rust with counts, CaDiCaL and PicoSAT the ratio, if there is one.
fn row(m: &Measured) -> (String, Vec<Option<Spread>>) {
    let mut ratios = vec![Some(m.ratio())];
    ratios.extend(Who::all().into_iter().filter(|w| !w.is_same_run()).map(|w| m.by(w).map(|t| t.ratio)));
    (m.name.clone(), ratios)
}

pub fn ratios(r: &Results) -> String {
    let mut rows: Vec<(String, Vec<Option<Spread>>)> = r.runs.iter().map(row).collect();
    rows.extend(r.readings.iter().map(|m| (format!("reader: {}", m.name), vec![Some(m.ratio())])));
    let (left, top, step) = (190.0, 84.0, 26.0);
    let bottom = top + step * rows.len() as f64;
    let mut d = Drawing::new(880.0, bottom + 58.0);
    let values = rows.iter().flat_map(|(_, ratios)| ratios.iter().flatten().flat_map(|s| [s.low, s.high])).chain([0.5, 2.0]);
    let axis = Axis::around(values.collect::<Vec<_>>().into_iter(), left + 10.0, 860.0);
    d.text((20.0, 26.0), "start", 16.0, "The library's time divided by the other's");
    let mut x = 20.0;
    for (i, who) in Who::all().into_iter().skip(1).enumerate() {
        d.mark(i, (x + 5.0, 50.0), false);
        d.text((x + 16.0, 54.0), "start", 13.0, who.name());
        x += 110.0;
    }
    d.text((x + 16.0, 54.0), "start", 12.0, "left of 1 the library is faster; bars are quartiles");
    for tick in axis.ticks() {
        let at = axis.place(tick);
        d.line((at, top - 8.0), (at, bottom), GRID, 1.0, false);
        d.text((at, bottom + 18.0), "middle", 12.0, &label(tick));
    }
    let one = axis.place(1.0);
    d.line((one, top - 8.0), (one, bottom), INK, 1.5, false);
    d.text(((left + 870.0) / 2.0, bottom + 42.0), "middle", 13.0, "ratio (logarithmic)");
    for (i, (name, ratios)) in rows.iter().enumerate() {
        let y = top + step * (i as f64 + 0.5);
        let colour = if i == r.runs.len() { INK } else { GRID };
        d.line((20.0, y - step / 2.0), (870.0, y - step / 2.0), colour, 0.8, false);
        d.text((left, y + 4.0), "end", 13.0, name);
        for (which, spread) in ratios.iter().enumerate() {
            let Some(s) = spread else { continue };
            let y = y + 7.0 * (which as f64 - (ratios.len() - 1) as f64 / 2.0);
            d.line((axis.place(s.low), y), (axis.place(s.high), y), COLOURS[which], 2.0, false);
            d.mark(which, (axis.place(s.median), y), false);
        }
    }
    d.svg()
}

// ---- growth

/// A curve of a panel: which mark and colour, whether it is the plain program, and its points.
struct Curve {
    which: usize,
    plain: bool,
    points: Vec<(f64, f64)>,
}

fn panel(d: &mut Drawing, left: f64, title: &str, across: &str, curves: &[Curve]) {
    let (width, top, bottom) = (350.0, 130.0, 420.0);
    let all: Vec<(f64, f64)> = curves.iter().flat_map(|c| c.points.clone()).collect();
    let xs = Axis::around(all.iter().map(|p| p.0), left, left + width);
    let ys = Axis::around(all.iter().map(|p| p.1), bottom, top);
    d.text((left, top - 16.0), "start", 14.0, title);
    for tick in xs.ticks() {
        let at = xs.place(tick);
        d.line((at, top), (at, bottom), GRID, 1.0, false);
        d.text((at, bottom + 18.0), "middle", 12.0, &label(tick));
    }
    for tick in ys.ticks() {
        let at = ys.place(tick);
        d.line((left, at), (left + width, at), GRID, 1.0, false);
        d.text((left - 8.0, at + 4.0), "end", 12.0, &label(tick));
    }
    d.text((left + width / 2.0, bottom + 40.0), "middle", 13.0, across);
    for c in curves {
        let placed: Vec<(f64, f64)> = c.points.iter().map(|p| (xs.place(p.0), ys.place(p.1))).collect();
        for pair in placed.windows(2) {
            d.line(pair[0], pair[1], COLOURS[c.which], 1.8, c.plain);
        }
        for at in placed {
            d.mark(c.which, at, c.plain);
        }
    }
}

/// The curves of the library and of the plain program, by what is across and what is up.
fn curves(which: usize, points: &[Measured], across: fn(&Measured) -> f64, up: fn(&Measured, f64) -> f64) -> Vec<Curve> {
    [true, false]
        .into_iter()
        .map(|plain| {
            let ns = |m: &Measured| if plain { m.plain() } else { m.library() }.time.median;
            Curve { which, plain, points: points.iter().map(|m| (across(m), up(m, ns(m)))).collect() }
        })
        .collect()
}

pub fn growth(r: &Results) -> String {
    let mut d = Drawing::new(880.0, 480.0);
    d.text((20.0, 26.0), "start", 16.0, "Growth at a fixed ratio of clauses to variables");
    let mut x = 20.0;
    for (i, (name, _)) in r.growth.iter().enumerate() {
        d.mark(i, (x + 5.0, 50.0), false);
        d.text((x + 16.0, 54.0), "start", 13.0, name);
        x += 50.0 + 7.0 * name.len() as f64;
    }
    for (at, plain, name) in [(20.0, false, "library"), (140.0, true, "plain Rust")] {
        d.line((at, 74.0), (at + 30.0, 74.0), INK, 1.8, plain);
        d.text((at + 38.0, 78.0), "start", 13.0, name);
    }
    // The time of a run whose budget is spent says nothing of variables: the last series is in the second panel alone.
    let of_runs: Vec<Curve> = r.growth[..2]
        .iter()
        .enumerate()
        .flat_map(|(i, (_, points))| curves(i, points, |m| f64::from(m.vars), |m, ns| ns / 1e6 / m.formulas as f64))
        .collect();
    let of_tries: Vec<Curve> = r
        .growth
        .iter()
        .enumerate()
        .flat_map(|(i, (_, points))| curves(i, points, |m| f64::from(m.clauses), |m, ns| ns / m.tries.max(1) as f64))
        .collect();
    panel(&mut d, 75.0, "ms a run", "variables", &of_runs);
    panel(&mut d, 515.0, "ns a try", "clauses", &of_tries);
    d.svg()
}
