//! The picture: a small chart for each kind of call, both scales logarithmic.
use crate::kinds::KINDS;
use crate::report::{Line, number};

const WIDE: f64 = 210.0;
const HIGH: f64 = 190.0;
const LEFT: f64 = 44.0;
const COLUMNS: usize = 4;
const HEAD: f64 = 48.0;

/// From 1 ns to 10 ms, and from 300 to 2,000,000 things.
fn y(nanos: f64) -> f64 {
    let part = nanos.max(1.0).log10() / 7.0;
    HIGH - 30.0 - part * (HIGH - 60.0)
}

fn x(size: u64) -> f64 {
    let part = ((size as f64).log10() - 2.5) / 3.8;
    LEFT + part * (WIDE - LEFT - 10.0)
}

fn polyline(points: &[(u64, f64)], style: &str) -> String {
    let at: Vec<String> = points.iter().map(|(s, n)| format!("{:.1},{:.1}", x(*s), y(*n))).collect();
    let mut out = format!("<g {style}>\n<polyline points=\"{}\" fill=\"none\"/>\n", at.join(" "));
    for (s, n) in points {
        out += &format!("<circle cx=\"{:.1}\" cy=\"{:.1}\" r=\"2.5\" stroke=\"none\"/>\n", x(*s), y(*n));
    }
    out + "</g>\n"
}

const OURS: &str = "stroke=\"#b03a2e\" fill=\"#b03a2e\" stroke-width=\"1.8\"";
const STANDARD: &str = "stroke=\"#5d6d7e\" fill=\"#5d6d7e\" stroke-width=\"1.2\" stroke-dasharray=\"4 3\"";

fn axes() -> String {
    let mut out = String::new();
    for (nanos, text) in [(1.0, "1 ns"), (1e2, "100 ns"), (1e4, "10 µs"), (1e6, "1 ms")] {
        let at = y(nanos);
        out +=
            &format!("<line x1=\"{LEFT}\" x2=\"{:.0}\" y1=\"{at:.1}\" y2=\"{at:.1}\" stroke=\"#ddd\"/>\n", WIDE - 10.0);
        out += &format!(
            "<text x=\"{:.0}\" y=\"{:.1}\" text-anchor=\"end\" fill=\"#777\">{text}</text>\n",
            LEFT - 4.0,
            at + 3.0
        );
    }
    for size in [600, 9_000, 90_000, 1_000_000] {
        let text = number(size as f64);
        out += &format!(
            "<text x=\"{:.1}\" y=\"{:.0}\" text-anchor=\"middle\" fill=\"#777\">{text}</text>\n",
            x(size),
            HIGH - 16.0
        );
    }
    out
}

fn chart(title: &str, lines: &[&Line]) -> String {
    let ours: Vec<(u64, f64)> = lines.iter().map(|l| (l.size, l.nanos)).collect();
    let standard: Vec<(u64, f64)> = lines.iter().filter_map(|l| Some((l.size, l.standard?))).collect();
    let title = format!("<text x=\"{LEFT}\" y=\"16\" font-size=\"12\" fill=\"#222\">{title}</text>\n");
    title + &axes() + &polyline(&standard, STANDARD) + &polyline(&ours, OURS)
}

pub fn svg(lines: &[Line]) -> String {
    let mut charts = String::new();
    for (j, kind) in KINDS.into_iter().enumerate() {
        let of: Vec<&Line> = lines.iter().filter(|l| l.kind == kind).collect();
        let (dx, dy) = ((j % COLUMNS) as f64 * WIDE, HEAD + (j / COLUMNS) as f64 * HIGH);
        charts += &format!("<g transform=\"translate({dx:.0} {dy:.0})\">\n{}</g>\n", chart(kind.name(), &of));
    }
    let high = HEAD + KINDS.len().div_ceil(COLUMNS) as f64 * HIGH;
    let wide = COLUMNS as f64 * WIDE;
    let head = format!(
        "<svg xmlns=\"http://www.w3.org/2000/svg\" viewBox=\"0 0 {wide:.0} {high:.0}\" font-family=\"sans-serif\" font-size=\"8\">\n\
         <rect width=\"100%\" height=\"100%\" fill=\"white\"/>\n\
         <text x=\"{LEFT}\" y=\"20\" font-size=\"13\">Time of a call, by how many words or pairs there are</text>\n\
         <line x1=\"{LEFT}\" x2=\"70\" y1=\"34\" y2=\"34\" {OURS}/><text x=\"76\" y=\"37\" font-size=\"10\">Feplunek</text>\n\
         <line x1=\"140\" x2=\"166\" y1=\"34\" y2=\"34\" {STANDARD}/><text x=\"172\" y=\"37\" font-size=\"10\">Vec, BTreeMap</text>\n"
    );
    head + &charts + "</svg>\n"
}
