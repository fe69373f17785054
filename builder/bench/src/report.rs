//! The tables, in Markdown: first what was asked for, each with the worst ratio of the run, then the times.

use std::fmt::Write;

/// The greatest of some ratios, and where it was met.
pub struct Worst {
    ratio: f64,
    place: String,
}

impl Worst {
    /// The greatest of some.
    pub fn of(ratios: impl IntoIterator<Item = (f64, String)>) -> Worst {
        let greatest = ratios.into_iter().max_by(|(a, _), (b, _)| a.total_cmp(b));
        let (ratio, place) = greatest.expect("something was measured");
        Worst { ratio, place }
    }
}

#[derive(Default)]
pub struct Report {
    asked: String,
    times: String,
}

impl Report {
    /// A ratio with the most that was asked for, or one to which nothing was asked.
    pub fn ratio(&mut self, what: &str, beside: &str, most: Option<f64>, worst: &Worst) {
        let Worst { ratio, place } = worst;
        let asked = most.map_or(String::from("–"), |most| format!("{most:.2}"));
        let ratio_text = if *ratio < 0.001 { format!("1/{:.0}", 1.0 / ratio) } else { format!("{ratio:.3}") };
        let holds = most.map_or("", |most| if *ratio <= most { "yes" } else { "**no**" });
        writeln!(self.asked, "| {what} | {beside} | {asked} | {ratio_text} | {place} | {holds} |").expect("text grows");
    }

    /// A table of times: its heading, its columns, and the cells of each row.
    pub fn table(&mut self, heading: &str, columns: &[&str], rows: &[Vec<String>]) {
        let line =
            |cells: &mut dyn Iterator<Item = &str>| format!("| {} |\n", cells.collect::<Vec<&str>>().join(" | "));
        self.times += &format!("\n{heading}\n\n");
        self.times += &line(&mut columns.iter().copied());
        self.times += &line(&mut columns.iter().map(|_| "---"));
        for row in rows {
            self.times += &line(&mut row.iter().map(String::as_str));
        }
    }

    pub fn text(&self) -> String {
        let head = "| What | Beside | Asked, at most | Worst ratio | Met at | Holds |\n|---|---|---|---|---|---|\n";
        format!("{head}{}{}", self.asked, self.times)
    }
}
