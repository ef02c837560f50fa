//! Lines of cells, in columns and as CSV.

const BETWEEN: &str = "  ";

/// The lines in columns as wide as their widest cells. Those of numbers stand on the
/// right.
pub fn in_columns<const N: usize>(lines: &[[String; N]], numbers: &[usize]) -> String {
    let width = |column: usize| {
        let widths = lines.iter().filter_map(|line| line.get(column));
        widths.map(String::len).max().unwrap_or_default()
    };
    let widths: Vec<usize> = (0..N).map(width).collect();
    let lines = lines.iter().map(|cells| line(cells, &widths, numbers));
    lines.collect()
}

fn line(cells: &[String], widths: &[usize], numbers: &[usize]) -> String {
    let cells = cells.iter().zip(widths).enumerate();
    let cells = cells.map(|(column, (cell, width))| match numbers.contains(&column) {
        true => format!("{cell:>width$}"),
        false => format!("{cell:<width$}"),
    });
    let line = cells.collect::<Vec<_>>().join(BETWEEN);
    format!("{}\n", line.trim_end())
}

/// A line of CSV (RFC 4180).
pub fn comma_separated(cells: &[String]) -> String {
    let fields: Vec<String> = cells.iter().map(|cell| escaped(cell)).collect();
    fields.join(",") + "\r\n"
}

/// In quotes where it has a comma, a quote or a line end.
fn escaped(field: &str) -> String {
    match field.contains([',', '"', '\r', '\n']) {
        true => format!("\"{}\"", field.replace('"', "\"\"")),
        false => field.to_string(),
    }
}
