//! Counts of what was compared and what differs, by kind.

#[derive(Default)]
pub struct Tally {
    rows: Vec<(String, u64, u64)>,
}

impl Tally {
    /// Starts a kind; what is counted next belongs to it.
    pub fn kind(&mut self, name: &str) {
        self.rows.push((name.into(), 0, 0));
    }

    /// Starts a kind, unless it is the one that was started last.
    pub fn start(&mut self, name: &str) {
        if self.rows.last().is_none_or(|row| row.0 != name) {
            self.kind(name);
        }
    }

    /// Counts one comparison; `show` describes a difference, and the first few of each kind are printed.
    pub fn count(&mut self, equal: bool, show: impl FnOnce() -> String) {
        self.count_at(self.rows.len().checked_sub(1).expect("a kind was started"), equal, show);
    }

    /// Counts one comparison of a kind, which starts here where it is new.
    pub fn count_in(&mut self, kind: &str, equal: bool, show: impl FnOnce() -> String) {
        let at = self.rows.iter().position(|row| row.0 == kind).unwrap_or_else(|| {
            self.kind(kind);
            self.rows.len() - 1
        });
        self.count_at(at, equal, show);
    }

    fn count_at(&mut self, at: usize, equal: bool, show: impl FnOnce() -> String) {
        let row = &mut self.rows[at];
        row.1 += 1;
        if !equal {
            row.2 += 1;
            if row.2 <= 5 {
                println!("differ: {}: {}", row.0, show());
            }
        }
    }

    pub fn differ(&self) -> u64 {
        self.rows.iter().map(|row| row.2).sum()
    }

    /// Prints the table and the verdict; the program's exit status.
    pub fn close(&self) -> std::process::ExitCode {
        for (name, compared, differ) in &self.rows {
            println!("{name:<32} {compared:>12} {differ:>8}");
        }
        let compared: u64 = self.rows.iter().map(|row| row.1).sum();
        let differ = self.differ();
        println!("{compared} compared, {differ} differ");
        u8::from(differ > 0).into()
    }
}
