//! A picture's elements as SVG, on a light card, so that it can be read on any background.

use std::fmt::Write;

pub const INK: &str = "#24292f";
pub const FAINT: &str = "#6b7280";
pub const GRID: &str = "#dfe3e8";
const CARD: &str = "#fdfdfc";
const FONTS: &str = "system-ui, 'Segoe UI', 'DejaVu Sans', sans-serif";

/// Where words stand at their place, their colour and their size.
#[derive(Clone, Copy)]
pub struct Style(pub &'static str, pub &'static str, pub u32);

/// What is drawn so far.
pub struct Svg(String);

impl Svg {
    pub fn new([width, height]: [f64; 2]) -> Self {
        let mut svg = format!(
            "<svg xmlns=\"http://www.w3.org/2000/svg\" viewBox=\"0 0 {width} {height}\" width=\"{width}\" height=\"{height}\" font-family=\"{FONTS}\">\n"
        );
        let (width, height) = (width - 1.0, height - 1.0);
        let _ = writeln!(
            svg,
            "<rect x=\"0.5\" y=\"0.5\" width=\"{width}\" height=\"{height}\" rx=\"8\" fill=\"{CARD}\" stroke=\"{GRID}\"/>"
        );
        Svg(svg)
    }

    pub fn text(&mut self, x: f64, y: f64, style: Style, words: &str) {
        let Style(anchor, colour, size) = style;
        let _ = writeln!(
            self.0,
            "<text x=\"{x:.1}\" y=\"{y:.1}\" text-anchor=\"{anchor}\" fill=\"{colour}\" font-size=\"{size}\">{words}</text>"
        );
    }

    pub fn bar(&mut self, [x, y, width, height]: [f64; 4], colour: &str) {
        let _ = writeln!(
            self.0,
            "<rect x=\"{x:.1}\" y=\"{y:.1}\" width=\"{width:.1}\" height=\"{height:.1}\" rx=\"2\" fill=\"{colour}\"/>"
        );
    }

    /// A small square of a colour, and what it stands for.
    pub fn key(&mut self, x: f64, y: f64, colour: &str, words: &str) {
        self.bar([x, y, 14.0, 12.0], colour);
        self.text(x + 20.0, y + 10.5, Style("start", INK, 12), words);
    }

    pub fn line(&mut self, [x, y, to_x, to_y]: [f64; 4], colour: &str, dashes: &str) {
        let _ = writeln!(
            self.0,
            "<line x1=\"{x:.1}\" y1=\"{y:.1}\" x2=\"{to_x:.1}\" y2=\"{to_y:.1}\" stroke=\"{colour}\" stroke-width=\"1.3\" stroke-dasharray=\"{dashes}\"/>"
        );
    }

    /// Joined, each with a dot.
    pub fn points(&mut self, points: &[[f64; 2]], colour: &str, dashes: &str) {
        let joined: Vec<String> = points
            .iter()
            .map(|[x, y]| format!("{x:.1},{y:.1}"))
            .collect();
        let _ = writeln!(
            self.0,
            "<polyline points=\"{}\" fill=\"none\" stroke=\"{colour}\" stroke-width=\"2\" stroke-dasharray=\"{dashes}\"/>",
            joined.join(" ")
        );
        for [x, y] in points {
            let _ = writeln!(
                self.0,
                "<circle cx=\"{x:.1}\" cy=\"{y:.1}\" r=\"3.5\" fill=\"{colour}\"/>"
            );
        }
    }

    pub fn done(self) -> String {
        self.0 + "</svg>\n"
    }
}
