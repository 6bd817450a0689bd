//! The table, in Markdown.

/// One line: the nanoseconds of each side that there is.
#[derive(Default)]
pub struct Row<'a> {
    pub name: &'a str,
    pub proved: f64,
    pub plain: Option<f64>,
    pub tight: Option<f64>,
    /// The greatest ratio to plain that is wanted, if one is.
    pub bar: Option<f64>,
    /// How often each side took memory in the timed turns, where that is counted.
    pub allocations: &'a [u64],
}

pub fn head() {
    println!(
        "| {:<44} | proved, ns | plain, ns | tight, ns | to plain | bar  | to tight | allocations |",
        "Case"
    );
    println!(
        "|{:-<46}|-----------:|----------:|----------:|---------:|-----:|---------:|------------:|",
        ""
    );
}

/// A number with so many places, if there is one.
fn written(number: Option<f64>, places: usize) -> String {
    number.map_or(String::new(), |number| format!("{number:.places$}"))
}

impl Row<'_> {
    pub fn print(&self) {
        let ratio = |side: Option<f64>| side.map(|side| self.proved / side);
        println!(
            "| {:<44} | {:>10.1} | {:>9} | {:>9} | {:>8} | {:>4} | {:>8} | {:>11} |",
            self.name,
            self.proved,
            written(self.plain, 1),
            written(self.tight, 1),
            written(ratio(self.plain), 2),
            self.bar.map_or(String::new(), |bar| bar.to_string()),
            written(ratio(self.tight), 1),
            self.allocations
                .iter()
                .map(u64::to_string)
                .collect::<Vec<_>>()
                .join(" / ")
        );
    }
}
