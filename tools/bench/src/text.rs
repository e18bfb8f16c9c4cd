//! Aligned plain text.

pub fn title(text: &str) {
    println!("\n{text}\n");
}

/// Prints rows of cells in columns: the first one flush left, all others flush right.
pub fn columns(rows: &[Vec<String>]) {
    let count = rows.iter().map(Vec::len).max().unwrap_or(0);
    let widths: Vec<usize> =
        (0..count).map(|i| rows.iter().filter_map(|row| row.get(i)).map(String::len).max().unwrap_or(0)).collect();
    for row in rows {
        println!("{}", line(row, &widths));
    }
}

fn line(row: &[String], widths: &[usize]) -> String {
    let mut line = format!("{:<width$}", row[0], width = widths[0]);
    for (cell, width) in row.iter().zip(widths).skip(1) {
        line += &format!("  {cell:>width$}");
    }
    line
}

pub fn words(words: &[&str]) -> Vec<String> {
    words.iter().map(|word| word.to_string()).collect()
}

/// Names of columns that have two numbers each.
pub fn double(names: &[&str]) -> Vec<String> {
    names.iter().flat_map(|name| [name.to_string(), String::new()]).collect()
}

/// Nanoseconds as microseconds.
pub fn micros(nanos: f64) -> String {
    format!("{:.2}", nanos / 1e3)
}

pub fn ratio(ratio: f64) -> String {
    format!("{ratio:.2}")
}
