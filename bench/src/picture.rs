//! The picture of growth: two panels, the time of a filtering over the number of courses and over that of terms.

use std::fmt::Write;

/// The lines of a panel, in nanoseconds; Gecode's may be missing.
pub struct Growth {
    pub what: String,
    pub sizes: Vec<usize>,
    pub library: Vec<f64>,
    pub gecode: Vec<f64>,
}

const WIDTH: f64 = 300.0;
const HEIGHT: f64 = 200.0;

/// An SVG of two panels with the same axis of time, which is logarithmic, from 1 to 1,000 microseconds.
pub fn draw(left: &Growth, right: &Growth) -> String {
    let mut svg = String::from(
        "<svg xmlns=\"http://www.w3.org/2000/svg\" viewBox=\"0 0 760 290\" font-family=\"sans-serif\" font-size=\"12\">\n\
         <rect width=\"760\" height=\"290\" fill=\"white\"/>\n",
    );
    panel(&mut svg, left, 60.0);
    panel(&mut svg, right, 430.0);
    svg.push_str("</svg>\n");
    svg
}

fn panel(svg: &mut String, growth: &Growth, x0: f64) {
    let y0 = 30.0;
    let largest = growth.sizes.iter().copied().max().unwrap_or(1) as f64;
    let x = |size: usize| x0 + WIDTH * size as f64 / largest;
    let y = |ns: f64| y0 + HEIGHT * (1.0 - (ns / 1000.0).max(1.0).log10() / 3.0);
    for microseconds in [1, 10, 100, 1000] {
        let at = y(microseconds as f64 * 1000.0);
        line(svg, x0, at, x0 + WIDTH, at, "#dddddd");
        text(svg, x0 - 6.0, at + 4.0, "end", &format!("{microseconds} µs"));
    }
    line(svg, x0, y0, x0, y0 + HEIGHT, "black");
    line(svg, x0, y0 + HEIGHT, x0 + WIDTH, y0 + HEIGHT, "black");
    for &size in &growth.sizes {
        text(svg, x(size), y0 + HEIGHT + 16.0, "middle", &size.to_string());
    }
    text(svg, x0 + WIDTH / 2.0, y0 + HEIGHT + 36.0, "middle", &growth.what);
    for (name, colour, times) in [("library", "#0055aa", &growth.library), ("Gecode", "#cc5500", &growth.gecode)] {
        let points: Vec<String> =
            growth.sizes.iter().zip(times).map(|(&size, &ns)| format!("{:.1},{:.1}", x(size), y(ns))).collect();
        if points.is_empty() {
            continue;
        }
        let _ = writeln!(
            svg,
            "<polyline points=\"{}\" fill=\"none\" stroke=\"{colour}\" stroke-width=\"2\"/>",
            points.join(" ")
        );
        let last = y(times[times.len() - 1]);
        let _ = writeln!(
            svg,
            "<text x=\"{:.1}\" y=\"{:.1}\" text-anchor=\"end\" fill=\"{colour}\">{name}</text>",
            x0 + WIDTH,
            last - 8.0
        );
    }
}

fn line(svg: &mut String, x1: f64, y1: f64, x2: f64, y2: f64, colour: &str) {
    let _ = writeln!(svg, "<line x1=\"{x1:.1}\" y1=\"{y1:.1}\" x2=\"{x2:.1}\" y2=\"{y2:.1}\" stroke=\"{colour}\"/>");
}

fn text(svg: &mut String, x: f64, y: f64, anchor: &str, words: &str) {
    let _ = writeln!(svg, "<text x=\"{x:.1}\" y=\"{y:.1}\" text-anchor=\"{anchor}\">{words}</text>");
}
