//! What is printed: headings with lines of costs below them, of which only some may be wanted.

use crate::measure::{Costs, Effort};

/// How a cost is written.
pub type Unit = fn(f64) -> String;

/// The time of a call, in the unit that suits it.
pub fn time(nanoseconds: f64) -> String {
    match nanoseconds {
        n if n < 1e4 => format!("{n:.0} ns"),
        n if n < 1e7 => format!("{:.1} us", n / 1e3),
        n => format!("{:.1} ms", n / 1e6),
    }
}

/// Nanoseconds, of which there are few.
pub fn fine(nanoseconds: f64) -> String {
    format!("{nanoseconds:.2}")
}

/// Nanoseconds, of which there may be many.
pub fn coarse(nanoseconds: f64) -> String {
    format!("{nanoseconds:.1}")
}

/// Bytes of stack.
pub fn kib(bytes: f64) -> String {
    format!("{:.1} KiB", bytes / 1_024.0)
}

pub struct Sheet {
    effort: Effort,
    /// The word that a heading or a line must have to be wanted.
    only: Option<String>,
    /// Whether there is a column for the older library.
    older: bool,
    heading: String,
    unit: Unit,
    /// Whether the heading is on paper: it waits for its first line.
    printed: bool,
    lines: usize,
}

impl Sheet {
    /// An empty sheet.
    pub fn new(effort: Effort, only: Option<String>, older: bool) -> Sheet {
        Sheet { effort, only, older, heading: String::new(), unit: time, printed: true, lines: 0 }
    }

    /// The lines printed so far.
    pub fn lines(&self) -> usize {
        self.lines
    }

    /// Begins a part, whose costs are written in one unit.
    pub fn heading(&mut self, text: &str, unit: Unit) {
        self.heading = text.to_string();
        self.unit = unit;
        self.printed = false;
    }

    /// A line of costs, which are measured only if the line is wanted.
    pub fn line(&mut self, label: &str, costs: impl FnOnce(Effort) -> Costs) {
        self.line_and(label, costs, |_| String::new());
    }

    /// A line that says more of its costs.
    pub fn line_and(
        &mut self,
        label: &str,
        costs: impl FnOnce(Effort) -> Costs,
        more: impl FnOnce(Costs) -> String,
    ) {
        if self.wants(label) {
            let costs = costs(self.effort);
            self.print_heading();
            self.lines += 1;
            println!("{label:<LABEL$}{}{}", self.columns(costs), more(costs));
        }
    }

    /// Whether a line is to be measured: not doing so is what saves the time.
    fn wants(&self, label: &str) -> bool {
        let has = |word: &String| self.heading.contains(word) || label.contains(word);
        self.only.as_ref().is_none_or(has)
    }

    /// A heading without lines is not printed, so it comes with the first of them.
    fn print_heading(&mut self) {
        if !std::mem::replace(&mut self.printed, true) {
            println!("\n{}", self.heading);
            println!("{:LABEL$}{}", "", self.names());
        }
    }

    /// The names of the columns.
    fn names(&self) -> String {
        let (ours, plain) = ("ours", "plain");
        match self.older {
            false => format!("{ours:>12}{plain:>12}{:>8}", "ratio"),
            true => {
                format!(
                    "{ours:>12}{:>12}{plain:>12}{:>12}{:>12}",
                    "older", PLAIN_RATIO, OLDER_RATIO
                )
            }
        }
    }

    /// The costs, and a warning where they are not of the same work.
    fn columns(&self, costs: Costs) -> String {
        let (ours, plain) = ((self.unit)(costs.ours), (self.unit)(costs.plain));
        let ratio = costs.plain_to_ours();
        match (costs.older, costs.older_to_ours()) {
            (Some(older), Some(older_ratio)) => {
                let older = (self.unit)(older);
                let note = if costs.refused_otherwise { "   older refuses otherwise" } else { "" };
                format!("{ours:>12}{older:>12}{plain:>12}{ratio:>12.2}{older_ratio:>12.2}{note}")
            }
            _ => format!("{ours:>12}{plain:>12}{ratio:>8.2}"),
        }
    }
}

const LABEL: usize = 44;
pub const PLAIN_RATIO: &str = "plain/ours";
pub const OLDER_RATIO: &str = "older/ours";
