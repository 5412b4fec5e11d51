//! The growth as a picture: rows to the right, milliseconds upwards, both doubling evenly.

use crate::Best;
use std::fmt::Write;

const WIDTH: f64 = 640.0;
const HEIGHT: f64 = 400.0;
const LEFT: f64 = 70.0;
const RIGHT: f64 = 90.0;
const TOP: f64 = 30.0;
const BOTTOM: f64 = 50.0;

pub fn growth(points: &[(usize, Best)]) -> String {
    let rows: Vec<f64> = points.iter().map(|(rows, _)| *rows as f64).collect();
    let crates: Vec<f64> = points.iter().map(|(_, best)| 1e3 * best.0.as_secs_f64()).collect();
    let ours: Vec<f64> = points.iter().map(|(_, best)| 1e3 * best.1.as_secs_f64()).collect();
    let times = || crates.iter().chain(&ours).copied();
    let least = times().fold(f64::MAX, f64::min).log2().floor();
    let most = times().fold(f64::MIN, f64::max).log2().ceil();
    let (first, last) = (rows[0].log2(), rows[rows.len() - 1].log2());
    let x = |rows: f64| LEFT + (rows.log2() - first) / (last - first) * (WIDTH - LEFT - RIGHT);
    let y = |ms: f64| HEIGHT - BOTTOM - (ms.log2() - least) / (most - least) * (HEIGHT - TOP - BOTTOM);

    let mut svg = format!(
        "<svg xmlns=\"http://www.w3.org/2000/svg\" viewBox=\"0 0 {WIDTH} {HEIGHT}\" font-family=\"sans-serif\" \
         font-size=\"12\">\n<title>Time to merged events by rows</title>\n\
         <rect width=\"100%\" height=\"100%\" fill=\"white\"/>\n"
    );
    let mut put = |line: String| writeln!(svg, "{line}").unwrap();
    for power in least as i32..=most as i32 {
        let ms = 2f64.powi(power);
        let (y, right) = (y(ms), WIDTH - RIGHT);
        put(format!("<line x1=\"{LEFT}\" x2=\"{right}\" y1=\"{y:.1}\" y2=\"{y:.1}\" stroke=\"#ddd\"/>"));
        put(text(LEFT - 8.0, y + 4.0, "end", &format!("{ms}")));
    }
    for rows in &rows {
        put(text(x(*rows), HEIGHT - BOTTOM + 20.0, "middle", &format!("{rows}")));
    }
    put(text(LEFT - 8.0, TOP - 12.0, "end", "ms"));
    put(text((LEFT + WIDTH - RIGHT) / 2.0, HEIGHT - 10.0, "middle", "rows"));
    for (name, times, colour) in [("crate", &crates, "#b35900"), ("Stableglow", &ours, "#0057a8")] {
        let places: Vec<(f64, f64)> = rows.iter().zip(times).map(|(r, ms)| (x(*r), y(*ms))).collect();
        let line: Vec<String> = places.iter().map(|(x, y)| format!("{x:.1},{y:.1}")).collect();
        put(format!(
            "<polyline points=\"{}\" fill=\"none\" stroke=\"{colour}\" stroke-width=\"2\"/>",
            line.join(" ")
        ));
        for (x, y) in &places {
            put(format!("<circle cx=\"{x:.1}\" cy=\"{y:.1}\" r=\"3\" fill=\"{colour}\"/>"));
        }
        let (x, y) = places[places.len() - 1];
        put(text(x + 8.0, y + 4.0, "start", name));
    }
    svg.push_str("</svg>\n");
    svg
}

fn text(x: f64, y: f64, anchor: &str, words: &str) -> String {
    format!("<text x=\"{x:.1}\" y=\"{y:.1}\" text-anchor=\"{anchor}\">{words}</text>")
}
