//! A picture of times against sizes, as SVG: panels with logarithmic axes, our line full with dots, the crate's dashed with squares.
use std::fmt::Write;

use crate::figures::grouped;

pub struct Panel {
    pub title: &'static str,
    /// What the sizes count.
    pub unit: &'static str,
    /// Ours, and the crate's where it has the call: sizes and nanoseconds.
    pub lines: Vec<Vec<(f64, f64)>>,
}

/// A panel with its labels; its plot; the picture's head; and what the notes need.
const CELL: (f64, f64) = (430.0, 290.0);
const PLOT: (f64, f64) = (320.0, 200.0);
const CORNER: (f64, f64) = (76.0, 34.0);
const HEAD: f64 = 58.0;
const WIDTH: f64 = 540.0;

const CLASSES: [&str; 2] = ["ours", "crate"];
const STYLE: &str = "<style>text{font:12px sans-serif;fill:#222}.t{font-weight:bold}.e{text-anchor:end}.m{text-anchor:middle}\
.g{stroke:#ddd;fill:none}.b{stroke:#555;fill:none}.ours,.crate{fill:none;stroke-width:2}\
.ours{stroke:#0b57a4;marker-start:url(#o);marker-mid:url(#o);marker-end:url(#o)}\
.crate{stroke:#b8480a;stroke-dasharray:6 4;marker-start:url(#c);marker-mid:url(#c);marker-end:url(#c)}</style>\n\
<defs><marker id=\"o\" viewBox=\"-5 -5 10 10\" markerWidth=\"5\" markerHeight=\"5\"><circle r=\"4\" fill=\"#0b57a4\"/></marker>\n\
<marker id=\"c\" viewBox=\"-5 -5 10 10\" markerWidth=\"5\" markerHeight=\"5\">\
<rect x=\"-3.5\" y=\"-3.5\" width=\"7\" height=\"7\" fill=\"#fff\" stroke=\"#b8480a\" stroke-width=\"1.5\"/></marker></defs>\n";

/// The decades that hold all values, two at least.
fn decades(values: impl Iterator<Item = f64>) -> (i32, i32) {
    let (low, high) = values.map(f64::log10).fold((f64::INFINITY, f64::NEG_INFINITY), |(l, h), v| (v.min(l), v.max(h)));
    let low = low.floor() as i32;
    (low, (high.ceil() as i32).max(low + 2))
}

/// 10 to the power of `decade` nanoseconds.
fn tick(decade: i32) -> String {
    let unit = ["ns", "µs", "ms", "s"][(decade / 3).clamp(0, 3) as usize];
    format!("{} {unit}", 10f64.powi(decade - 3 * (decade / 3).clamp(0, 3)))
}

fn panel(out: &mut String, p: &Panel) -> std::fmt::Result {
    let ((left, top), (width, height)) = (CORNER, PLOT);
    let points = || p.lines.iter().flatten();
    let (x, y) = (decades(points().map(|p| p.0)), decades(points().map(|p| p.1)));
    let across = |v: f64| left + width * (v - f64::from(x.0)) / f64::from(x.1 - x.0);
    let down = |v: f64| top + height * (f64::from(y.1) - v) / f64::from(y.1 - y.0);
    let (right, bottom, middle) = (left + width, top + height, left + width / 2.0);
    writeln!(out, "<text class=\"m\" x=\"{middle}\" y=\"{}\">{}</text>", top - 8.0, p.title)?;
    for decade in x.0..=x.1 {
        let (at, size) = (across(decade.into()), grouped(10usize.pow(decade as u32)));
        writeln!(
            out,
            "<path class=\"g\" d=\"M{at:.0} {top}v{height}\"/><text class=\"m\" x=\"{at:.0}\" y=\"{}\">{size}</text>",
            bottom + 18.0
        )?;
    }
    for decade in y.0..=y.1 {
        let (at, time) = (down(decade.into()), tick(decade));
        writeln!(
            out,
            "<path class=\"g\" d=\"M{left} {at:.0}h{width}\"/><text class=\"e\" x=\"{}\" y=\"{:.0}\">{time}</text>",
            left - 6.0,
            at + 4.0
        )?;
    }
    writeln!(out, "<path class=\"b\" d=\"M{left} {top}V{bottom}H{right}\"/>")?;
    writeln!(out, "<text class=\"m\" x=\"{middle}\" y=\"{}\">{}</text>", bottom + 36.0, p.unit)?;
    let beside = top + height / 2.0;
    writeln!(out, "<text class=\"m\" transform=\"rotate(-90 14 {beside})\" x=\"14\" y=\"{beside}\">time of a call</text>")?;
    for (line, class) in p.lines.iter().zip(CLASSES) {
        let points: Vec<String> = line.iter().map(|(n, ns)| format!("{:.1},{:.1}", across(n.log10()), down(ns.log10()))).collect();
        writeln!(out, "<polyline class=\"{class}\" points=\"{}\"/>", points.join(" "))?;
    }
    Ok(())
}

fn draw(out: &mut String, title: &str, panels: &[Panel], notes: &[&str]) -> std::fmt::Result {
    let columns = panels.len().clamp(1, 2);
    let foot = HEAD + CELL.1 * panels.len().div_ceil(columns) as f64;
    let (width, height) = (WIDTH.max(CELL.0 * columns as f64), foot + 18.0 * notes.len() as f64);
    writeln!(out, "<svg xmlns=\"http://www.w3.org/2000/svg\" width=\"{width}\" height=\"{height}\" viewBox=\"0 0 {width} {height}\">")?;
    write!(out, "<title>{title}</title>\n{STYLE}<rect width=\"{width}\" height=\"{height}\" fill=\"#fff\"/>\n")?;
    writeln!(out, "<text class=\"t\" x=\"16\" y=\"24\">{title}: time against size</text>")?;
    let sides = panels.iter().map(|p| p.lines.len()).max().unwrap_or(0);
    for (i, name) in ["ours", "the crate"].into_iter().enumerate().take(sides) {
        let at = 16 + 110 * i;
        writeln!(out, "<polyline class=\"{}\" points=\"{at},44 {},44 {},44\"/>", CLASSES[i], at + 18, at + 36)?;
        writeln!(out, "<text x=\"{}\" y=\"48\">{name}</text>", at + 44)?;
    }
    for (i, p) in panels.iter().enumerate() {
        let (x, y) = (CELL.0 * (i % columns) as f64, HEAD + CELL.1 * (i / columns) as f64);
        writeln!(out, "<g transform=\"translate({x} {y})\">")?;
        panel(out, p)?;
        writeln!(out, "</g>")?;
    }
    for (i, note) in notes.iter().enumerate() {
        writeln!(out, "<text x=\"16\" y=\"{}\">{note}</text>", foot + 4.0 + 18.0 * i as f64)?;
    }
    writeln!(out, "</svg>")
}

pub fn svg(title: &str, panels: &[Panel], notes: &[&str]) -> String {
    let mut out = String::new();
    draw(&mut out, title, panels, notes).expect("a string takes all");
    out
}

#[cfg(test)]
mod tests {
    use super::{svg, Panel};

    #[test]
    fn small_and_whole() {
        let panel = || Panel { title: "one", unit: "words", lines: vec![vec![(1e3, 7.5), (1e6, 9e9)], vec![(1e3, 1e2), (1e6, 2e3)]] };
        let picture = svg("read", &[panel(), panel(), panel(), panel()], &["a note"]);
        assert!(picture.len() < 8_000 && !picture.contains("NaN"), "{}", picture.len());
        assert_eq!(picture.matches("<polyline").count(), 2 + 2 * 4);
        assert_eq!(picture.matches("<text").count(), picture.matches("</text>").count());
    }
}
