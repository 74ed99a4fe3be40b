//! The plot: a bar for each time, on a logarithmic scale.

use std::fmt::Write;

use crate::quick::Row;

const COLOURS: [&str; 4] = ["#1b6ca8", "#e08e1b", "#8a8f98", "#c3c7cd"];
const LEFT: f64 = 190.0;
const WIDTH: f64 = 640.0;
const TOP: f64 = 56.0;
const BAR: f64 = 7.0;
const GAP: f64 = 9.0;
const LEAST: f64 = 10.0;

/// The plot of the quick asks' least times, as SVG.
pub fn svg(rows: &[Row]) -> String {
    let most = rows
        .iter()
        .flat_map(|row| &row.times)
        .map(|timed| timed.least);
    let most = most.fold(100.0, f64::max) * 1.15;
    let x = |time: f64| LEFT + WIDTH * (time.max(LEAST) / LEAST).ln() / (most / LEAST).ln();
    let bars = rows.first().map_or(0, |row| row.times.len()) as f64;
    let group = bars * BAR + GAP;
    let bottom = TOP + rows.len() as f64 * group;
    let mut svg = String::new();
    let mut line = |text: String| writeln!(svg, "{text}").expect("a string takes all");
    line(format!(
        r#"<svg xmlns="http://www.w3.org/2000/svg" width="{:.0}" height="{:.0}" font-family="sans-serif" font-size="11">"#,
        LEFT + WIDTH + 50.0,
        bottom + 30.0
    ));
    line(r##"<rect width="100%" height="100%" fill="#ffffff"/>"##.into());
    line(format!(
        r#"<text x="{LEFT}" y="20" font-size="14">Quick ask, columns of 32,768 entries: ns an ask, least of 25 rounds</text>"#
    ));
    if let Some(first) = rows.first() {
        for (k, timed) in first.times.iter().enumerate() {
            let at = LEFT + 110.0 * k as f64;
            line(format!(
                r#"<rect x="{at}" y="31" width="10" height="10" fill="{}"/>"#,
                COLOURS[k % 4]
            ));
            line(format!(
                r#"<text x="{}" y="40">{}</text>"#,
                at + 15.0,
                timed.name
            ));
        }
    }
    for mark in [
        10.0, 20.0, 50.0, 100.0, 200.0, 500.0, 1000.0, 2000.0, 5000.0,
    ] {
        if mark <= most {
            let at = x(mark);
            line(format!(
                r##"<line x1="{at:.1}" y1="{TOP}" x2="{at:.1}" y2="{bottom:.1}" stroke="#dddddd"/>"##
            ));
            line(format!(
                r#"<text x="{at:.1}" y="{:.1}" text-anchor="middle">{mark}</text>"#,
                bottom + 16.0
            ));
        }
    }
    for (r, row) in rows.iter().enumerate() {
        let top = TOP + r as f64 * group + GAP / 2.0;
        line(format!(
            r#"<text x="{:.1}" y="{:.1}" text-anchor="end">{} / {}</text>"#,
            LEFT - 8.0,
            top + bars * BAR / 2.0 + 4.0,
            row.kind.name(),
            row.stretch
        ));
        for (k, timed) in row.times.iter().enumerate() {
            let (y, to) = (top + k as f64 * BAR, x(timed.least));
            line(format!(
                r#"<rect x="{LEFT}" y="{y:.1}" width="{:.1}" height="{:.1}" fill="{}"/>"#,
                to - LEFT,
                BAR - 1.0,
                COLOURS[k % 4]
            ));
            line(format!(
                r##"<text x="{:.1}" y="{:.1}" font-size="7" fill="#555555">{:.0}</text>"##,
                to + 3.0,
                y + BAR - 1.0,
                timed.least
            ));
        }
    }
    line("</svg>".into());
    svg
}
