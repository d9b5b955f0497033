//! Line charts as SVG: panels side by side, with the same axes.

use std::fmt::Write;

pub struct Series {
    pub title: String,
    /// What the legend says after the title.
    pub note: String,
    pub points: Vec<(f64, f64)>,
}

pub struct Panel {
    pub title: String,
    pub series: Vec<Series>,
}

const WIDTH: f64 = 430.0;
const HEIGHT: f64 = 430.0;
/// The plotted part of a panel: left, top, right, bottom.
const AREA: [f64; 4] = [66.0, 120.0, 400.0, 378.0];
const COLOURS: [&str; 4] = ["#12508c", "#c8641e", "#7b4fa0", "#4d7f2e"];

/// Where a value of each axis lies.
struct Scale {
    most: (f64, f64),
}

impl Scale {
    fn x(&self, value: f64) -> f64 {
        AREA[0] + (AREA[2] - AREA[0]) * value / self.most.0
    }

    fn y(&self, value: f64) -> f64 {
        AREA[3] - (AREA[3] - AREA[1]) * value / self.most.1
    }
}

/// A step of 1, 2 or 5 times a power of ten that divides an axis into four to ten parts.
fn step(most: f64) -> f64 {
    let power = 10f64.powf((most / 4.0).log10().floor());
    [5.0, 2.0, 1.0].into_iter().map(|factor| factor * power).find(|step| most / step >= 4.0).unwrap_or(power)
}

/// A number with a comma before its last three digits.
fn number(value: f64) -> String {
    let whole = value.round() as u64;
    if whole < 1_000 {
        whole.to_string()
    } else {
        format!("{},{:03}", whole / 1_000, whole % 1_000)
    }
}

fn text(svg: &mut String, at: (f64, f64), anchor: &str, size: u8, words: &str) {
    let words = words.replace('&', "&amp;").replace('<', "&lt;");
    let _ = writeln!(
        svg,
        "<text x=\"{:.1}\" y=\"{:.1}\" text-anchor=\"{anchor}\" font-size=\"{size}\">{words}</text>",
        at.0, at.1
    );
}

fn line(svg: &mut String, from: (f64, f64), to: (f64, f64), colour: &str) {
    let _ = writeln!(
        svg,
        "<line x1=\"{:.1}\" y1=\"{:.1}\" x2=\"{:.1}\" y2=\"{:.1}\" stroke=\"{colour}\"/>",
        from.0, from.1, to.0, to.1
    );
}

/// A mark of its own for each series: circle, square, diamond, triangle.
fn mark(svg: &mut String, number: usize, (x, y): (f64, f64)) {
    let colour = COLOURS[number % COLOURS.len()];
    let shape = match number % COLOURS.len() {
        0 => format!("<circle cx=\"{x:.1}\" cy=\"{y:.1}\" r=\"4\""),
        1 => format!("<rect x=\"{:.1}\" y=\"{:.1}\" width=\"7\" height=\"7\"", x - 3.5, y - 3.5),
        2 => format!(
            "<polygon points=\"{x:.1},{:.1} {:.1},{y:.1} {x:.1},{:.1} {:.1},{y:.1}\"",
            y - 5.0,
            x + 5.0,
            y + 5.0,
            x - 5.0
        ),
        _ => format!(
            "<polygon points=\"{x:.1},{:.1} {:.1},{:.1} {:.1},{:.1}\"",
            y - 4.5,
            x - 4.5,
            y + 3.5,
            x + 4.5,
            y + 3.5
        ),
    };
    let _ = writeln!(svg, "{shape} fill=\"{colour}\"/>");
}

fn axes(svg: &mut String, scale: &Scale, x_values: &[f64], names: (&str, &str)) {
    let [left, top, right, bottom] = AREA;
    let step = step(scale.most.1);
    for count in 0..=(scale.most.1 / step) as u32 {
        let value = f64::from(count) * step;
        line(svg, (left, scale.y(value)), (right, scale.y(value)), "#dddddd");
        text(svg, (left - 7.0, scale.y(value) + 4.0), "end", 12, &number(value));
    }
    for value in x_values {
        line(svg, (scale.x(*value), bottom), (scale.x(*value), bottom + 5.0), "#444444");
        text(svg, (scale.x(*value), bottom + 19.0), "middle", 12, &number(*value));
    }
    line(svg, (left, bottom), (right, bottom), "#444444");
    line(svg, (left, top), (left, bottom), "#444444");
    text(svg, ((left + right) / 2.0, bottom + 40.0), "middle", 13, names.0);
    let _ = writeln!(svg, "<g transform=\"translate(16 {:.1}) rotate(-90)\">", (top + bottom) / 2.0);
    text(svg, (0.0, 0.0), "middle", 13, names.1);
    svg.push_str("</g>\n");
}

fn draw_panel(svg: &mut String, panel: &Panel, scale: &Scale, names: (&str, &str)) {
    text(svg, (AREA[0], 24.0), "start", 14, &panel.title);
    let x_values: Vec<f64> = panel.series.iter().take(1).flat_map(|s| &s.points).map(|point| point.0).collect();
    axes(svg, scale, &x_values, names);
    for (number, series) in panel.series.iter().enumerate() {
        let colour = COLOURS[number % COLOURS.len()];
        let height = 46.0 + 20.0 * number as f64;
        line(svg, (AREA[0], height - 4.0), (AREA[0] + 26.0, height - 4.0), colour);
        mark(svg, number, (AREA[0] + 13.0, height - 4.0));
        text(svg, (AREA[0] + 34.0, height), "start", 13, &format!("{}: {}", series.title, series.note));
        let places: Vec<_> = series.points.iter().map(|point| (scale.x(point.0), scale.y(point.1))).collect();
        let path: Vec<_> = places.iter().map(|(x, y)| format!("{x:.1},{y:.1}")).collect();
        let path = path.join(" ");
        let _ = writeln!(svg, "<polyline points=\"{path}\" fill=\"none\" stroke=\"{colour}\" stroke-width=\"1.5\"/>");
        places.iter().for_each(|place| mark(svg, number, *place));
    }
}

pub fn draw(panels: &[Panel], x_name: &str, y_name: &str) -> String {
    let points = || panels.iter().flat_map(|panel| &panel.series).flat_map(|series| &series.points);
    let most = |value: fn(&(f64, f64)) -> f64| points().map(value).fold(1.0, f64::max);
    let highest = most(|point| point.1);
    let step = step(highest);
    let scale = Scale { most: (most(|point| point.0), (highest / step).ceil() * step) };
    let mut svg = format!(
        "<svg xmlns=\"http://www.w3.org/2000/svg\" viewBox=\"0 0 {0} {HEIGHT}\" width=\"{0}\" height=\"{HEIGHT}\" \
         font-family=\"sans-serif\">\n<rect width=\"100%\" height=\"100%\" fill=\"white\"/>\n",
        WIDTH * panels.len() as f64
    );
    for (number, panel) in panels.iter().enumerate() {
        let _ = writeln!(svg, "<g transform=\"translate({:.0} 0)\">", WIDTH * number as f64);
        draw_panel(&mut svg, panel, &scale, (x_name, y_name));
        svg.push_str("</g>\n");
    }
    svg.push_str("</svg>\n");
    svg
}
