//! Text in columns.

/// Lines whose words stand below each other; each ends with a line break.
pub fn columns(lines: &[Vec<String>]) -> String {
    let count = lines.iter().map(Vec::len).max().unwrap_or(0);
    let width = |column: usize| {
        lines
            .iter()
            .filter_map(|line| line.get(column))
            .map(String::len)
            .max()
    };
    let widths: Vec<usize> = (0..count)
        .map(|column| width(column).unwrap_or(0))
        .collect();
    let padded = |line: &Vec<String>| {
        let words: Vec<String> = line
            .iter()
            .zip(&widths)
            .map(|(word, &width)| format!("{word:<width$}"))
            .collect();
        words.join("  ").trim_end().to_string() + "\n"
    };
    lines.iter().map(padded).collect()
}
