//! The figures as Markdown tables: one of the least times, one of the medians, one of the instructions.

use bench::work::Side;

/// What is measured of a call on one side.
#[derive(Clone, Copy)]
pub struct Figures {
    pub least: f64,
    pub median: f64,
    pub instructions: Option<f64>,
}

/// A call and its figures on each side that has it.
pub struct Row {
    call: &'static str,
    figures: [Option<Figures>; 4],
}

impl Row {
    /// A row without figures.
    pub fn new(call: &'static str) -> Row {
        Row { call, figures: [None; 4] }
    }

    /// Puts the figures of a side.
    pub fn put(&mut self, side: Side, figures: Figures) {
        self.figures[side as usize] = Some(figures);
    }

    /// The row of a table of one figure: that of the proved store, then that of each other side with its ratio.
    fn shown(&self, figure: impl Fn(&Figures) -> Option<f64>) -> String {
        let figures = self.figures.map(|figures| figures.as_ref().and_then(&figure));
        let [proved, others @ ..] = figures;
        let mut fields = vec![String::from(self.call), field(proved)];
        for other in others {
            let ratio = proved.zip(other).map(|(proved, other)| proved / other);
            fields.extend([field(other), ratio.map_or_else(|| String::from("-"), |ratio| format!("{ratio:.2}"))]);
        }
        format!("| {} |\n", fields.join(" | "))
    }
}

/// A number with two decimals, one without decimals but with commas from a thousand on, `-` for none.
fn field(number: Option<f64>) -> String {
    match number {
        None => String::from("-"),
        Some(number) if number < 1_000.0 => format!("{number:.2}"),
        Some(number) => with_commas(number.round() as u64),
    }
}

/// A number with commas between its thousands.
pub fn with_commas(number: u64) -> String {
    match number {
        0..1_000 => number.to_string(),
        _ => format!("{},{:03}", with_commas(number / 1_000), number % 1_000),
    }
}

/// The three tables.
pub fn shown(rows: &[Row]) -> String {
    let least = table("least time", rows, |figures| Some(figures.least));
    let median = table("median time", rows, |figures| Some(figures.median));
    let instructions = table("instructions", rows, |figures| figures.instructions);
    [least, median, instructions].join("\n")
}

fn table(name: &str, rows: &[Row], figure: impl Fn(&Figures) -> Option<f64>) -> String {
    let rows: String = rows.iter().map(|row| row.shown(&figure)).collect();
    let head = format!("| {name} | proved | plain | ratio | fast | ratio | scan | ratio |");
    format!("{head}\n|---|---:|---:|---:|---:|---:|---:|---:|\n{rows}")
}
