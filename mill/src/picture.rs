//! A picture of positions over time, as SVG.
use crate::curve::Curve;
use crate::failure::Failure;
use plotters::coord::types::RangedCoordf64;
use plotters::coord::Shift;
use plotters::prelude::*;
use plotters::style::text_anchor::{HPos, Pos, VPos};
use std::io;

/// Colours that stay apart for most eyes (after Okabe and Ito).
const COLOURS: [RGBColor; 7] = [
    RGBColor(0x00, 0x72, 0xB2),
    RGBColor(0xD5, 0x5E, 0x00),
    RGBColor(0x00, 0x9E, 0x73),
    RGBColor(0xCC, 0x79, 0xA7),
    RGBColor(0xE6, 0x9F, 0x00),
    RGBColor(0x56, 0xB4, 0xE9),
    RGBColor(0x00, 0x00, 0x00),
];

/// The lines behind the curves.
const GRID: RGBColor = RGBColor(0xDD, 0xDD, 0xDD);

/// The font, of some 13 pixels: the SVG back end divides this size by 1.24.
const FONT: (&str, u32) = ("sans-serif", 16);

/// What surrounds the curves, in pixels: for numbers, labels and names.
const LEFT: u32 = 80;
const RIGHT: u32 = 30;
const TOP: u32 = 10;
const BOTTOM: u32 = 45;
const EDGE: u32 = 10;

/// Pixels from one name to the next, and of the line before it.
const NAME: u32 = 20;
const SAMPLE: i32 = 24;

/// Pixels of a character, some.
const CHARACTER: f64 = 7.5;

/// Pixels from one number of an axis to the next, at least.
const ACROSS: f64 = 80.0;
const UPWARDS: u32 = 45;

type Area<'a> = DrawingArea<SVGBackend<'a>, Shift>;
type Chart<'a, 'b> = ChartContext<'a, SVGBackend<'b>, Cartesian2d<RangedCoordf64, RangedCoordf64>>;
type Drawn = Result<(), DrawingAreaErrorKind<io::Error>>;

/// The pixels that are left for curves, of a picture's width.
pub fn columns(width: u32) -> u32 {
    width.saturating_sub(LEFT + RIGHT).max(1)
}

/// A picture of so many pixels, for the time from the one to the other second.
pub fn drawn(curves: &[(String, Curve)], time: (f64, f64), size: (u32, u32)) -> Result<String, Failure> {
    let mut svg = String::new();
    let whole = SVGBackend::with_string(&mut svg, size).into_drawing_area();
    let names = named(curves, size.1);
    let parts = whole.fill(&WHITE).and_then(|()| {
        let (head, body) = whole.split_vertically(TOP + NAME * names.len() as u32);
        legend(&head, &names)?;
        chart(&body, curves, time)?;
        whole.present()
    });
    drop(whole);
    parts.map(|()| svg).map_err(|error| Failure::File(format!("picture: {error}")))
}

/// The names of the curves with their colours. Where half of a picture's height does not hold them, the last one says
/// how many more there are.
fn named(curves: &[(String, Curve)], height: u32) -> Vec<(String, Option<RGBColor>)> {
    let most = ((height / 2).saturating_sub(TOP) / NAME).max(1) as usize;
    let colours = COLOURS.into_iter().cycle().map(Some);
    let mut names: Vec<_> = curves.iter().map(|(name, _)| name.clone()).zip(colours).collect();
    if names.len() > most {
        let more = names.split_off(most - 1).len();
        names.push((format!("{more} more"), None));
    }
    names
}

/// Names, each behind a piece of its curve.
fn legend(area: &Area, names: &[(String, Option<RGBColor>)]) -> Drawn {
    let (width, _) = area.dim_in_pixel();
    let (left, font) = (LEFT as i32, TextStyle::from(FONT).pos(Pos::new(HPos::Left, VPos::Center)));
    for (place, (name, colour)) in (0..).zip(names) {
        let y = (TOP + NAME * place + NAME / 2) as i32;
        if let Some(colour) = colour {
            area.draw(&PathElement::new([(left, y), (left + SAMPLE, y)], colour.stroke_width(3)))?;
        }
        let name = ending(name, f64::from(columns(width)) - f64::from(SAMPLE + 8));
        area.draw(&Text::new(name, (left + SAMPLE + 8, y), font.clone()))?;
    }
    Ok(())
}

/// The axes and the curves.
fn chart(area: &Area, curves: &[(String, Curve)], (from, to): (f64, f64)) -> Drawn {
    let (low, high) = positions(curves);
    let mut chart = ChartBuilder::on(area)
        .margin_right(RIGHT)
        .margin_top(EDGE)
        .margin_bottom(EDGE)
        .margin_left(EDGE)
        .x_label_area_size(BOTTOM)
        .y_label_area_size(LEFT - EDGE)
        .build_cartesian_2d(from..to, low..high)?;
    axes(&mut chart, (from, to), high - low)?;
    for ((_, curve), colour) in curves.iter().zip(COLOURS.iter().cycle()) {
        chart.draw_series(LineSeries::new(points(curve, from), colour.mix(0.9).stroke_width(2)))?;
    }
    Ok(())
}

/// The axes with their numbers and labels, for a time and so many positions.
fn axes(chart: &mut Chart, time: (f64, f64), positions: f64) -> Drawn {
    let (width, height) = chart.plotting_area().dim_in_pixel();
    let (numbers, decimals) = numbers(time, width.into());
    chart
        .configure_mesh()
        .max_light_lines(0)
        .bold_line_style(GRID)
        .label_style(FONT)
        .x_labels(numbers as usize)
        .x_label_formatter(&|seconds| format!("{seconds:.decimals$}"))
        .x_desc("time (s)")
        .y_labels(f64::from(height / UPWARDS).min(positions).max(1.0) as usize) // positions are whole numbers
        .y_label_formatter(&|position| format!("{}", position.round() as i64))
        .y_desc("position (steps)")
        .draw()
}

/// How many numbers the axis of time has at most, and the decimals that tell them apart.
fn numbers((from, to): (f64, f64), pixels: f64) -> (f64, usize) {
    let decimals = |numbers: f64| (-((to - from) / numbers).log10().floor()).max(0.0) as usize;
    let widest = format!("{to:.*}", decimals(pixels / ACROSS)).len() + 3;
    let numbers = (pixels / ACROSS.max(CHARACTER * widest as f64)).floor().max(2.0);
    (numbers, decimals(numbers))
}

/// The positions that are shown: all of the curves, and a little more.
fn positions(curves: &[(String, Curve)]) -> (f64, f64) {
    let ranges = curves.iter().map(|(_, curve)| curve.range());
    let (low, high) = ranges.reduce(|a, b| (a.0.min(b.0), a.1.max(b.1))).unwrap_or((0, 0));
    let (low, high) = (low as f64, high as f64);
    let more = ((high - low) * 0.05).max(0.5);
    (low - more, high + more)
}

/// A name, or as much of its end as so many pixels hold. What no picture holds is replaced.
fn ending(name: &str, pixels: f64) -> String {
    let name = name.replace(char::is_control, "\u{FFFD}");
    let most = (pixels / CHARACTER) as usize;
    match name.chars().count().checked_sub(most) {
        None | Some(0) => name,
        Some(more) => "…".chars().chain(name.chars().skip(more + 1)).collect(),
    }
}

/// A curve's points: level to each step, then up or down.
fn points(curve: &Curve, from: f64) -> Vec<(f64, f64)> {
    let mut points = vec![(from, curve.start as f64)];
    let mut last = curve.start;
    for column in &curve.columns {
        let mut turns = vec![last, column.low, column.high, column.last];
        turns.dedup();
        points.extend(turns.into_iter().map(|position| (column.time, position as f64)));
        last = column.last;
    }
    if curve.end > from {
        points.push((curve.end, last as f64));
    }
    points
}

#[cfg(test)]
mod tests {
    use super::*;
    use crate::curve::Window;
    use crate::steps::Step;

    fn picture(name: &str, steps: u64) -> String {
        let window = Window { from: 0.0, to: 1.0, columns: columns(960) };
        let steps = (0..steps).map(|i| Ok(Step { clock: i, position: i as i64 % 50 }));
        let curve = Curve::thinned(steps, 1_000_000, 1.0, window).unwrap();
        drawn(&[(name.to_string(), curve)], (0.0, 1.0), (960, 480)).unwrap()
    }

    #[test]
    fn a_picture_has_its_labels_and_names() {
        let svg = picture("a<b & \"c\"", 10);
        for text in ["\ntime (s)\n", "\nposition (steps)\n", "\na&lt;b &amp; &quot;c&quot;\n", "\n0.4\n", "\n8\n"] {
            assert!(svg.contains(text), "{text}: {svg}");
        }
        assert!(svg.starts_with("<svg ") && svg.ends_with("</svg>\n"));
    }

    #[test]
    fn numbers_have_decimals_enough() {
        assert_eq!([numbers((0.0, 8.0), 640.0), numbers((0.0, 1.2), 640.0)], [(8.0, 0), (8.0, 1)]);
        assert_eq!([numbers((0.0, 0.0001), 850.0), numbers((1e6, 1e6 + 2e-4), 850.0)], [(10.0, 5), (7.0, 5)]);
        assert_eq!(numbers((0.0, 7_200.0), 90.0), (2.0, 0));
    }

    #[test]
    fn names_leave_half_of_the_height() {
        let curves =
            ["a", "b", "c", "d", "e"].map(|name| (name.to_string(), Curve { start: 0, end: 1.0, columns: vec![] }));
        let names = |height| named(&curves, height).into_iter().map(|(name, _)| name).collect::<Vec<_>>();
        assert_eq!(names(480), ["a", "b", "c", "d", "e"]);
        assert_eq!(names(200), ["a", "b", "c", "2 more"]);
        assert!(drawn(&curves, (0.0, 1.0), (200, 200)).is_ok());
    }

    #[test]
    fn a_long_name_shows_its_end() {
        assert_eq!((ending("run", 100.0), ending("a/b/c", 37.5)), ("run".into(), "a/b/c".into()));
        assert_eq!((ending("folder/run", 37.5), ending("a\tb", 100.0)), ("…/run".into(), "a\u{FFFD}b".into()));
    }

    #[test]
    fn a_picture_of_a_million_steps_is_small() {
        assert!(picture("run", 1_000_000).len() < 60_000);
    }

    #[test]
    fn a_picture_of_nothing_is_a_level_line() {
        let svg = picture("run", 0);
        assert!(svg.contains("<polyline "), "{svg}");
        assert!(!svg.contains("NaN") && !svg.contains("inf"));
    }
}
