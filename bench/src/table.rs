//! Markdown tables, and how the ratios of each come out.

use crate::measure::Sides;

/// The ratios of a table that is being printed: ours to each of the references.
pub struct Table {
    title: String,
    forms: Vec<f64>,
    free: Vec<f64>,
}

/// A number, or a dash where a side did not run.
pub fn number(value: f64, digits: usize) -> String {
    if value.is_finite() {
        format!("{value:.digits$}")
    } else {
        "-".to_string()
    }
}

impl Table {
    /// Prints the title and the head: a name, the given columns, then those of the three sides.
    pub fn new(title: &str, columns: &str, unit: &str) -> Table {
        let sides = format!("ours, {unit} | in the forms, {unit} | ratio | free, {unit} | ratio");
        Table::of(title, &format!("{columns} | {sides}"))
    }

    /// Prints the title and a head with these columns after the name; whoever prints the rows gives the ratios to `note`.
    pub fn of(title: &str, columns: &str) -> Table {
        println!("\n## {title}\n");
        println!("| line | {columns} |");
        println!("|---|{}", "---:|".repeat(columns.split('|').count()));
        Table {
            title: title.to_string(),
            forms: Vec::new(),
            free: Vec::new(),
        }
    }

    /// A row where the free reference does other work, so that a ratio to it says nothing.
    pub fn row_apart(&mut self, name: &str, cells: &str, time: Sides<f64>) {
        let ratio = time.ours / time.forms;
        self.forms.extend(Some(ratio).filter(|r| r.is_finite()));
        print_row(name, cells, time, ratio, f64::NAN);
    }

    pub fn row(&mut self, name: &str, cells: &str, time: Sides<f64>) {
        let [forms, free] = self.note(time);
        print_row(name, cells, time, forms, free);
    }

    /// Ours to each of the references, also for the summary.
    pub fn note(&mut self, time: Sides<f64>) -> [f64; 2] {
        let ratios = [time.ours / time.forms, time.ours / time.free];
        self.forms.extend(Some(ratios[0]).filter(|r| r.is_finite()));
        self.free.extend(Some(ratios[1]).filter(|r| r.is_finite()));
        ratios
    }

    /// One line of the summary.
    fn summary(&self) -> String {
        let (forms, free) = (spread(&self.forms), spread(&self.free));
        format!(
            "| {} | {} | {forms} | {free} |",
            self.title,
            self.forms.len()
        )
    }
}

fn print_row(name: &str, cells: &str, time: Sides<f64>, to_forms: f64, to_free: f64) {
    let Sides { ours, forms, free } = time.map(|time| number(time, 0));
    let ratios = [to_forms, to_free].map(|ratio| number(ratio, 2));
    println!(
        "| {name} | {cells} | {ours} | {forms} | {} | {free} | {} |",
        ratios[0], ratios[1]
    );
}

/// Least, geometric mean and greatest ratio.
fn spread(ratios: &[f64]) -> String {
    let least = ratios.iter().copied().fold(f64::INFINITY, f64::min);
    let greatest = ratios.iter().copied().fold(f64::NEG_INFINITY, f64::max);
    let logarithms: f64 = ratios.iter().map(|ratio| ratio.ln()).sum();
    let mean = (logarithms / ratios.len() as f64).exp();
    [least, mean, greatest]
        .map(|ratio| number(ratio, 2))
        .join(" | ")
}

pub fn print_summary(tables: &[Table]) {
    println!("\n## Ratios: ours / the reference in the forms, then ours / the free reference\n");
    let columns = "least | geometric mean | greatest";
    println!("| table | lines | {columns} | {columns} |");
    println!("|---|{}", "---:|".repeat(7));
    for table in tables.iter().filter(|table| !table.forms.is_empty()) {
        println!("{}", table.summary());
    }
}
