//! What was aimed at, and what was measured.

/// One number that was to be at most another.
struct Target {
    what: String,
    most: f64,
    measured: Option<f64>,
}

/// All of them, in the order in which they were measured.
#[derive(Default)]
pub struct Targets(Vec<Target>);

impl Targets {
    pub fn at_most(&mut self, what: impl Into<String>, most: f64, measured: impl Into<Option<f64>>) {
        self.0.push(Target { what: what.into(), most, measured: measured.into() });
    }

    pub fn print(&self) {
        println!("\n## Targets\n\n| what | at most | measured | |\n|---|---|---|---|");
        for Target { what, most, measured } in &self.0 {
            match measured {
                Some(measured) => println!("| {what} | {most} | {measured:.2} | {} |", if measured <= most { "met" } else { "MISSED" }),
                None => println!("| {what} | {most} | | not measured: the peer isn't there |"),
            }
        }
        let met = self.0.iter().filter(|t| t.measured.is_some_and(|m| m <= t.most)).count();
        println!("\n{met} of {} targets are met.", self.0.len());
    }
}
