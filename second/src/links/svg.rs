//! The few shapes of which the picture is made, written as SVG.

use std::fmt::Write;

pub struct Svg {
    text: String,
}

type Point = (i32, i32);

impl Svg {
    pub fn new(width: i32, height: i32) -> Svg {
        let mut svg = Svg { text: String::new() };
        svg.put(format_args!(
            "<svg xmlns=\"http://www.w3.org/2000/svg\" width=\"{width}\" height=\"{height}\" \
             viewBox=\"0 0 {width} {height}\" font-family=\"DejaVu Sans, Arial, sans-serif\">"
        ));
        svg.put(format_args!("<defs>"));
        svg.pattern("checking", "#ffe39a", "#b98a1d", "M0 8 L8 0");
        svg.pattern("stopped", "#d9d9d9", "#8a8a8a", "M0 0 L8 8 M0 8 L8 0");
        svg.put(format_args!("</defs>"));
        svg.rectangle((0, 0), (width, height), "#fcfcfa", "none");
        svg
    }

    /// Writing to a string cannot fail.
    fn put(&mut self, line: std::fmt::Arguments) {
        let _ = self.text.write_fmt(line);
        self.text.push('\n');
    }

    fn pattern(&mut self, id: &str, ground: &str, ink: &str, path: &str) {
        self.put(format_args!(
            "<pattern id=\"{id}\" width=\"8\" height=\"8\" patternUnits=\"userSpaceOnUse\">\
             <rect width=\"8\" height=\"8\" fill=\"{ground}\"/><path d=\"{path}\" stroke=\"{ink}\"/></pattern>"
        ));
    }

    pub fn rectangle(&mut self, (x, y): Point, (width, height): Point, fill: &str, stroke: &str) {
        self.put(format_args!(
            "<rect x=\"{x}\" y=\"{y}\" width=\"{width}\" height=\"{height}\" fill=\"{fill}\" stroke=\"{stroke}\"/>"
        ));
    }

    /// A straight line, dashed if `dashes` is not empty.
    pub fn line(&mut self, (x, y): Point, (to_x, to_y): Point, ink: &str, dashes: &str) {
        self.put(format_args!(
            "<line x1=\"{x}\" y1=\"{y}\" x2=\"{to_x}\" y2=\"{to_y}\" stroke=\"{ink}\" stroke-dasharray=\"{dashes}\"/>"
        ));
    }

    pub fn text(&mut self, (x, y): Point, size: i32, anchor: &str, words: &str) {
        self.put(format_args!(
            "<text x=\"{x}\" y=\"{y}\" font-size=\"{size}\" text-anchor=\"{anchor}\" fill=\"#111\">{words}</text>"
        ));
    }

    /// The mark of a query: its number in a circle.
    pub fn number(&mut self, (x, y): Point, number: usize) {
        self.put(format_args!(
            "<circle cx=\"{x}\" cy=\"{y}\" r=\"9\" fill=\"#fff\" stroke=\"#12395b\" stroke-width=\"2\"/>"
        ));
        self.text((x, y + 4), 12, "middle", &number.to_string());
    }

    /// An arrow along one axis: dashed with T set, full with T clear, grey if it was refused.
    pub fn arrow(&mut self, (x, y): Point, (to_x, to_y): Point, tentative: bool, taken: bool) {
        let ink = match (taken, tentative) {
            (false, _) => "#9a9a9a",
            (true, true) => "#b3390b",
            (true, false) => "#0b6b2b",
        };
        let dashes = if tentative { "6 3" } else { "" };
        let (along_x, along_y) = ((to_x - x).signum(), (to_y - y).signum());
        let neck = (to_x - 7 * along_x, to_y - 7 * along_y);
        self.put(format_args!("<circle cx=\"{x}\" cy=\"{y}\" r=\"3\" fill=\"{ink}\"/>"));
        self.put(format_args!(
            "<line x1=\"{x}\" y1=\"{y}\" x2=\"{}\" y2=\"{}\" stroke=\"{ink}\" stroke-width=\"2\" \
             stroke-dasharray=\"{dashes}\"/>",
            neck.0, neck.1
        ));
        self.put(format_args!(
            "<path d=\"M{to_x} {to_y} L{} {} L{} {} Z\" fill=\"{ink}\"/>",
            neck.0 - 5 * along_y,
            neck.1 - 5 * along_x,
            neck.0 + 5 * along_y,
            neck.1 + 5 * along_x
        ));
    }

    pub fn finish(mut self) -> String {
        self.put(format_args!("</svg>"));
        self.text
    }
}
