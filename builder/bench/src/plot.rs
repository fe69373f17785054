//! The plot of the scans: for each kind of letters, the time a letter against k−m.

use crate::scans::{CONTENDERS, K, Kind, Times};
use std::fmt::Write;

const PANEL: f64 = 300.0;
const HEIGHT: f64 = 240.0;
const LEFT: f64 = 52.0;
const TOP: f64 = 64.0;
const GAP: f64 = 24.0;
/// The most nanoseconds that the plot has; what is above leaves it.
const MOST: f64 = 12.0;
const COLOURS: [&str; 6] = ["#c0392b", "#7f8c8d", "#2e86c1", "#1e8449", "#b9770e", "#8e44ad"];

fn x(panel: usize, beside: u64) -> f64 {
    LEFT + panel as f64 * (PANEL + GAP) + PANEL * beside as f64 / (K - 1) as f64
}

fn y(time: f64) -> f64 {
    TOP + HEIGHT * (1.0 - time / MOST)
}

/// The plot as an SVG picture.
pub fn scans(times: &[Times]) -> String {
    let (width, height) = (x(Kind::ALL.len() - 1, K - 1) + 16.0, TOP + HEIGHT + 52.0);
    let mut svg = format!(
        "<svg xmlns=\"http://www.w3.org/2000/svg\" viewBox=\"0 0 {width} {height}\" width=\"{width}\" height=\"{height}\" \
         font-family=\"sans-serif\" font-size=\"12\" fill=\"#222\">\n<rect width=\"100%\" height=\"100%\" fill=\"#fff\"/>\n"
    );
    draw(&mut svg, times).expect("text grows");
    svg + "</svg>\n"
}

fn draw(svg: &mut String, times: &[Times]) -> std::fmt::Result {
    writeln!(
        svg,
        "<text x=\"{LEFT}\" y=\"18\" font-size=\"14\">A scan of 65,536 letters, k={K}: nanoseconds a letter against k−m</text>"
    )?;
    for (c, (contender, colour)) in CONTENDERS.iter().zip(COLOURS).enumerate() {
        let at = LEFT + 110.0 * c as f64;
        writeln!(svg, "<path d=\"M{at} 34h22\" stroke=\"{colour}\" stroke-width=\"{}\"/>", stroke(c))?;
        writeln!(svg, "<text x=\"{}\" y=\"38\">{}</text>", at + 28.0, contender.name)?;
    }
    for (panel, kind) in Kind::ALL.into_iter().enumerate() {
        axes(svg, panel, kind.name())?;
        for (c, colour) in COLOURS.into_iter().enumerate().rev() {
            let of_kind = times.iter().filter(|times| times.kind == kind);
            let points = of_kind.map(|times| format!("{:.1},{:.1}", x(panel, K - times.m), y(times.best[c])));
            let points = points.collect::<Vec<String>>().join(" ");
            let line = format!("fill=\"none\" stroke=\"{colour}\" stroke-width=\"{}\"", stroke(c));
            writeln!(svg, "<polyline points=\"{points}\" {line} clip-path=\"url(#panel{panel})\"/>")?;
        }
    }
    Ok(())
}

/// The proved scan is drawn bold.
fn stroke(c: usize) -> f64 {
    if c == 0 { 2.5 } else { 1.3 }
}

fn axes(svg: &mut String, panel: usize, kind: &str) -> std::fmt::Result {
    let (left, right) = (x(panel, 0), x(panel, K - 1));
    writeln!(
        svg,
        "<clipPath id=\"panel{panel}\"><rect x=\"{left}\" y=\"{TOP}\" width=\"{PANEL}\" height=\"{HEIGHT}\"/></clipPath>"
    )?;
    for time in (0..=MOST as u32).step_by(2) {
        let y = y(f64::from(time));
        writeln!(svg, "<path d=\"M{left} {y}H{right}\" stroke=\"#ddd\"/>")?;
        if panel == 0 {
            writeln!(svg, "<text x=\"{}\" y=\"{}\" text-anchor=\"end\">{time}</text>", left - 6.0, y + 4.0)?;
        }
    }
    for beside in (0..K).step_by(5) {
        let x = x(panel, beside);
        writeln!(svg, "<text x=\"{x}\" y=\"{}\" text-anchor=\"middle\">{beside}</text>", TOP + HEIGHT + 16.0)?;
    }
    let middle = (left + right) / 2.0;
    writeln!(svg, "<text x=\"{middle}\" y=\"{}\" text-anchor=\"middle\">k−m</text>", TOP + HEIGHT + 34.0)?;
    writeln!(svg, "<text x=\"{middle}\" y=\"{}\" text-anchor=\"middle\" font-weight=\"bold\">{kind}</text>", TOP - 6.0)
}
