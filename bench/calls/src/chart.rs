//! A small chart of the table: two bars for each row that has a handler.

use crate::table::Row;

const LABEL: f64 = 250.0;
const PLOT: f64 = 420.0;
const ROW: f64 = 30.0;
const BAR: f64 = 11.0;
const TOP: f64 = 34.0;
const PORT: &str = "#1b7f5c";
const ORIGINAL: &str = "#b0b0b0";

pub fn svg(rows: &[Row]) -> String {
    let rows: Vec<(&Row, f64)> =
        rows.iter().filter_map(|row| row.times.handler.map(|handler| (row, handler))).collect();
    let most = rows.iter().map(|(row, handler)| handler.max(row.times.port)).fold(1.0, f64::max);
    let (width, height) = (LABEL + PLOT + 90.0, TOP + ROW * rows.len() as f64 + 10.0);
    let mut svg = format!(
        "<svg xmlns=\"http://www.w3.org/2000/svg\" width=\"{width}\" height=\"{height}\" \
         font-family=\"sans-serif\" font-size=\"12\">\n\
         <rect width=\"100%\" height=\"100%\" fill=\"white\"/>\n"
    );
    svg += &legend();
    for (at, (row, handler)) in rows.into_iter().enumerate() {
        let top = TOP + ROW * at as f64;
        svg += &text(8.0, top + 15.0, &row.bench.label());
        svg += &bar(top, row.times.port, most, PORT);
        svg += &bar(top + BAR + 1.0, handler, most, ORIGINAL);
    }
    svg + "</svg>\n"
}

fn legend() -> String {
    let key = |left: f64, colour: &str, name: &str| {
        format!("<rect x=\"{left}\" y=\"10\" width=\"12\" height=\"12\" fill=\"{colour}\"/>\n")
            + &text(left + 18.0, 20.0, name)
    };
    text(8.0, 20.0, "nanoseconds for a call")
        + &key(LABEL, PORT, "the port")
        + &key(LABEL + 110.0, ORIGINAL, "the original's handler")
}

fn bar(top: f64, time: f64, most: f64, colour: &str) -> String {
    let length = PLOT * time / most;
    format!("<rect x=\"{LABEL}\" y=\"{top:.1}\" width=\"{length:.1}\" height=\"{BAR}\" fill=\"{colour}\"/>\n")
        + &text(LABEL + length + 6.0, top + BAR - 1.0, &format!("{time:.0}"))
}

fn text(left: f64, base: f64, words: &str) -> String {
    format!("<text x=\"{left:.1}\" y=\"{base:.1}\">{words}</text>\n")
}
