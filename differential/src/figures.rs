//! Figures as tables and pictures print them.

/// Three digits and a unit, as 3.51 ms.
pub fn time(ns: f64) -> String {
    let units = ["ns", "µs", "ms", "s"];
    let at = ((ns.max(1.0).log10() / 3.0) as usize).min(3);
    let v = ns / 1000f64.powi(at as i32);
    let places = if v < 9.995 { 2 } else { usize::from(v < 99.95) };
    format!("{v:.places$} {}", units[at])
}

/// 65,536 for 65536.
pub fn grouped(n: usize) -> String {
    let digits = n.to_string();
    let comma = |i: usize| i > 0 && (digits.len() - i) % 3 == 0;
    digits.char_indices().flat_map(|(i, c)| comma(i).then_some(',').into_iter().chain([c])).collect()
}

/// A table's row in markdown, wide enough to read as it stands.
pub fn row<S: AsRef<str>>(cells: impl IntoIterator<Item = S>) -> String {
    cells.into_iter().map(|c| format!("| {:<13} ", c.as_ref())).collect::<String>() + "|"
}

/// A table's head, and the line below it.
pub fn head<S: AsRef<str>>(cells: impl IntoIterator<Item = S>) -> String {
    let row = row(cells);
    let columns = row.matches('|').count() - 1;
    format!("{row}\n{}|", "|---".repeat(columns))
}

#[cfg(test)]
mod tests {
    #[test]
    fn three_digits() {
        let shown = [0.5, 9.994, 9.996, 99.96, 999.0, 1000.0, 3_514_000.0, 2e12].map(super::time);
        assert_eq!(shown, ["0.50 ns", "9.99 ns", "10.0 ns", "100 ns", "999 ns", "1.00 µs", "3.51 ms", "2000 s"]);
        assert_eq!([0, 999, 1000, 65_536, 1_000_000].map(super::grouped), ["0", "999", "1,000", "65,536", "1,000,000"]);
    }
}
