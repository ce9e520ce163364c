//! A picture of lines, as SVG: no script, letters of the reader's own, and colours for the light and for the dark.
use crate::axis::{Axis, Scale};
use std::fmt::Write;

/// A line, or points alone where they are few.
#[derive(Clone, Debug)]
pub struct Line {
    pub name: String,
    pub points: Vec<(f64, f64)>,
}

#[derive(Clone, Debug)]
pub struct Picture {
    pub title: String,
    pub across: Axis,
    pub up: Axis,
    pub lines: Vec<Line>,
}

const WIDE: f64 = 420.0;
const LEFT: f64 = 62.0;
// The first place stands so far behind the marks.
const FIRST: f64 = LEFT + 8.0;
const RIGHT: f64 = 404.0;
const TOP: f64 = 34.0;
const BOTTOM: f64 = 226.0;
const NAMES: f64 = 276.0;
const NAME: f64 = 18.0;

/// Colours and letters of all pictures, by the reader's choice of light or dark.
pub const STYLE: &str = "\
.picture{--ink:#1d2430;--faint:#d5dae2;--dim:#5a6473;--paper:#fff;--c0:#0b63b4;--c1:#b3450a;--c2:#1a7a45;--c3:#8a3fa8;--c4:#8a6d00;--c5:#c2185b}\
@media (prefers-color-scheme:dark){.picture{--ink:#e6eaf0;--faint:#3a4352;--dim:#a3adbb;--paper:#151a22;--c0:#6db3f2;--c1:#f2995c;--c2:#6fd19c;--c3:#d19be8;--c4:#e0c35a;--c5:#f48fb1}}\
.picture text{font:13px system-ui,sans-serif;fill:var(--ink)}.picture .title{font-weight:600;font-size:14px}.picture .mark{fill:var(--dim);font-size:12px}\
.picture .grid{stroke:var(--faint)}.picture .line{fill:none;stroke-width:2}\
.picture .c0{stroke:var(--c0)}.picture .c1{stroke:var(--c1)}.picture .c2{stroke:var(--c2)}.picture .c3{stroke:var(--c3)}.picture .c4{stroke:var(--c4)}.picture .c5{stroke:var(--c5)}\
.picture .c1,.picture .c4{stroke-dasharray:7 3}.picture .c2,.picture .c5{stroke-dasharray:2 3}.picture .dot{stroke-dasharray:none;fill:var(--paper)}";

const COLOURS: usize = 6;
// Points are shown where a line has no more of them.
const FEW: usize = 24;

/// The text, as it may stand in HTML and SVG.
#[must_use]
pub fn escaped(text: &str) -> String {
    text.replace('&', "&amp;").replace('<', "&lt;").replace('>', "&gt;").replace('"', "&quot;")
}

impl Picture {
    /// Writes the picture as a part of a page that has [`STYLE`]. Besides what is written to, no piece of memory that this takes grows
    /// with the points.
    pub fn write_to_page(&self, page: &mut String) {
        self.write(page, "", "");
    }

    /// The picture as a file by itself.
    #[must_use]
    pub fn by_itself(&self) -> String {
        let paper = "<rect class=\"paper\" width=\"100%\" height=\"100%\"/>";
        let mut svg = String::new();
        let wide = " width=\"630\"";
        self.write(&mut svg, wide, &format!("<style>{STYLE}.picture .paper{{fill:var(--paper)}}</style>\n{paper}\n"));
        svg + "\n"
    }

    fn write(&self, svg: &mut String, wide: &str, head: &str) {
        let title = escaped(&self.title);
        let high = NAMES + NAME * self.named() as f64;
        let _ = writeln!(
            svg,
            "<svg class=\"picture\" xmlns=\"http://www.w3.org/2000/svg\"{wide} viewBox=\"0 0 {WIDE} {high}\" role=\"img\" aria-label=\"{title}\">"
        );
        *svg += head;
        let _ = writeln!(svg, "<text class=\"title\" x=\"8\" y=\"18\">{title}</text>");
        let points = || self.lines.iter().flat_map(|line| line.points.iter().copied());
        let (across, up) =
            (self.across.over(points().map(|point| point.0)), self.up.over(points().map(|point| point.1)));
        self.write_grid(svg, &across, &up);
        for (number, line) in self.lines.iter().enumerate() {
            write_line(svg, number, line, &across, &up);
        }
        self.write_names(svg);
        *svg += "</svg>";
    }

    // A line alone needs no name.
    fn named(&self) -> usize {
        if self.lines.len() > 1 {
            self.lines.len()
        } else {
            0
        }
    }

    fn write_grid(&self, svg: &mut String, across: &Scale, up: &Scale) {
        for mark in up.marks() {
            let (y, text) = (y_of(up, mark), self.up.written(mark));
            let _ = writeln!(svg, "<path class=\"grid\" d=\"M{LEFT} {y:.1}H{RIGHT}\"/>");
            let _ = writeln!(
                svg,
                "<text class=\"mark\" x=\"{}\" y=\"{:.1}\" text-anchor=\"end\">{text}</text>",
                LEFT - 6.0,
                y + 4.0
            );
        }
        let marks = across.marks();
        let texts: Vec<String> = marks.iter().map(|mark| self.across.written(*mark)).collect();
        for (mark, text) in marks.iter().zip(&texts) {
            let (x, y) = (x_of(across, *mark), BOTTOM + 17.0);
            let anchor = if x > RIGHT - 20.0 { "end" } else { "middle" };
            let x_text = if anchor == "end" { RIGHT + 10.0 } else { x };
            let _ = writeln!(svg, "<path class=\"grid\" d=\"M{x:.1} {BOTTOM}v4\"/>");
            let _ = writeln!(
                svg,
                "<text class=\"mark\" x=\"{x_text:.1}\" y=\"{y}\" text-anchor=\"{anchor}\">{text}</text>"
            );
        }
        let name = escaped(&self.across.name);
        let _ = writeln!(
            svg,
            "<text class=\"mark\" x=\"{RIGHT}\" y=\"{}\" text-anchor=\"end\">{name}</text>",
            BOTTOM + 36.0
        );
    }

    fn write_names(&self, svg: &mut String) {
        for (number, line) in self.lines.iter().take(self.named()).enumerate() {
            let (y, colour) = (NAMES + NAME * number as f64, number % COLOURS);
            let _ = writeln!(svg, "<path class=\"line c{colour}\" d=\"M{LEFT} {y}h28\"/>");
            let _ = writeln!(svg, "<text x=\"{}\" y=\"{}\">{}</text>", LEFT + 36.0, y + 4.0, escaped(&line.name));
        }
    }
}

fn x_of(across: &Scale, number: f64) -> f64 {
    FIRST + across.place(number) * (RIGHT - FIRST)
}

fn y_of(up: &Scale, number: f64) -> f64 {
    BOTTOM - up.place(number) * (BOTTOM - TOP)
}

fn write_line(svg: &mut String, number: usize, line: &Line, across: &Scale, up: &Scale) {
    let colour = number % COLOURS;
    let place = |(x, y): &(f64, f64)| (x_of(across, *x), y_of(up, *y));
    if line.points.len() > 1 {
        let _ = write!(svg, "<path class=\"line c{colour}\" d=\"");
        for (i, (x, y)) in line.points.iter().map(place).enumerate() {
            let _ = write!(svg, "{}{x:.1} {y:.1}", if i == 0 { 'M' } else { 'L' });
        }
        *svg += "\"/>\n";
    }
    if line.points.len() <= FEW {
        for (x, y) in line.points.iter().map(place) {
            let _ = writeln!(svg, "<circle class=\"line dot c{colour}\" cx=\"{x:.1}\" cy=\"{y:.1}\" r=\"3\"/>");
        }
    }
}

#[cfg(test)]
mod tests {
    use super::*;
    use crate::axis::Unit;

    fn picture(lines: usize) -> Picture {
        let line = |number| Line { name: format!("<{number}>"), points: vec![(1e6, 0.25), (1e7, 0.75)] };
        Picture {
            title: "Hits & \"misses\"".to_string(),
            across: Axis::new("memory", Unit::Bytes, true),
            up: Axis::new("hits", Unit::Share, false),
            lines: (0..lines).map(line).collect(),
        }
    }

    fn within_a_page(picture: &Picture) -> String {
        let mut page = String::new();
        picture.write_to_page(&mut page);
        page
    }

    #[test]
    fn points_stand_where_their_numbers_say() {
        let svg = within_a_page(&picture(1));
        let (quarter, three) = (BOTTOM - (BOTTOM - TOP) / 4.0, BOTTOM - (BOTTOM - TOP) * 0.75);
        assert!(svg.contains(&format!("d=\"M{FIRST:.1} {quarter:.1}L{RIGHT:.1} {three:.1}\"")), "{svg}");
        assert!(svg.contains("Hits &amp; &quot;misses&quot;") && !svg.contains("<0>"), "{svg}");
    }

    #[test]
    fn several_lines_have_names_and_a_file_by_itself_its_colours() {
        let svg = picture(2).by_itself();
        assert!(
            svg.contains("&lt;0&gt;") && svg.contains("&lt;1&gt;") && svg.contains("prefers-color-scheme:dark"),
            "{svg}"
        );
        assert!(!svg.contains("<script") && svg.matches("http").count() == 1, "{svg}");
        // the name of SVG alone
    }

    #[test]
    fn nothing_makes_an_empty_picture() {
        let svg = within_a_page(&picture(0));
        assert!(svg.ends_with("</svg>") && !svg.contains("NaN") && !svg.contains("inf"), "{svg}");
    }
}
