//! The times as a drawing (SVG): a panel for each call, nanoseconds against entries, both axes logarithmic.

use std::fmt::Write;

/// A call's name, and for each number of entries what the engine, the own box and the flat box take.
pub type Panel = (&'static str, Vec<(usize, [f64; 3])>);

const WIDE: f64 = 250.0;
const HIGH: f64 = 190.0;
const COLUMNS: usize = 4;
const LEFT: f64 = 48.0;
const TOP: f64 = 30.0;
const LEGEND: f64 = 34.0;
const LEAST: f64 = 40.0;
const MOST: f64 = 40_000.0;
const LINES: [(&str, &str, &str); 3] = [("engine", "#0b5394", ""), ("own box", "#b45f06", "6 3"), ("flat box", "#666666", "2 2")];
const TIMES: [(f64, &str); 3] = [(100.0, "100 ns"), (1000.0, "1 µs"), (10_000.0, "10 µs")];

fn across(entries: usize) -> f64 {
    LEFT + (entries as f64).ln() / 255f64.ln() * (WIDE - LEFT - 14.0)
}

fn down(nanos: f64) -> f64 {
    let height = HIGH - TOP - 24.0;
    TOP + height * (1.0 - (nanos.clamp(LEAST, MOST) / LEAST).ln() / (MOST / LEAST).ln())
}

fn panel(out: &mut String, at: usize, (name, points): &Panel) -> std::fmt::Result {
    let (x, y) = ((at % COLUMNS) as f64 * WIDE, LEGEND + (at / COLUMNS) as f64 * HIGH);
    writeln!(out, r#"<g transform="translate({x} {y})"><text x="{LEFT}" y="{}" font-weight="bold">{name}</text>"#, TOP - 10.0)?;
    for (nanos, label) in TIMES {
        let at = down(nanos);
        writeln!(out, r##"<line x1="{LEFT}" x2="{}" y1="{at:.1}" y2="{at:.1}" stroke="#ddd"/>"##, WIDE - 14.0)?;
        writeln!(out, r#"<text x="{}" y="{:.1}" text-anchor="end">{label}</text>"#, LEFT - 5.0, at + 4.0)?;
    }
    for (entries, _) in points {
        writeln!(out, r#"<text x="{:.1}" y="{}" text-anchor="middle">{entries}</text>"#, across(*entries), HIGH - 6.0)?;
    }
    for (which, (_, colour, dashes)) in LINES.iter().enumerate() {
        let line: Vec<String> = points.iter().map(|(entries, nanos)| format!("{:.1},{:.1}", across(*entries), down(nanos[which]))).collect();
        writeln!(out, r#"<polyline points="{}" fill="none" stroke="{colour}" stroke-width="2" stroke-dasharray="{dashes}"/>"#, line.join(" "))?;
    }
    writeln!(out, "</g>")
}

pub fn drawn(panels: &[Panel]) -> String {
    let (wide, high) = (WIDE * COLUMNS as f64, LEGEND + HIGH * panels.len().div_ceil(COLUMNS) as f64);
    let mut out = format!(r#"<svg xmlns="http://www.w3.org/2000/svg" viewBox="0 0 {wide} {high}" font-family="sans-serif" font-size="11">"#);
    out.push_str("\n<rect width=\"100%\" height=\"100%\" fill=\"white\"/>\n");
    for (at, (name, colour, dashes)) in LINES.iter().enumerate() {
        let x = LEFT + 130.0 * at as f64;
        out.push_str(&format!(r#"<line x1="{x}" x2="{}" y1="20" y2="20" stroke="{colour}" stroke-width="2" stroke-dasharray="{dashes}"/>"#, x + 30.0));
        out.push_str(&format!("<text x=\"{}\" y=\"24\">{name}</text>\n", x + 36.0));
    }
    out.push_str(&format!("<text x=\"{}\" y=\"24\">time of a call against entries held</text>\n", LEFT + 420.0));
    for (at, one) in panels.iter().enumerate() {
        panel(&mut out, at, one).expect("a string takes it");
    }
    out + "</svg>\n"
}
