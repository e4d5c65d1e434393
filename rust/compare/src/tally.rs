//! Counts which endings and situations a run met.

/// The count of each ending that can arise, and of each situation worth meeting.
pub struct Tally {
    part: &'static str,
    apart: bool,
    calls: u64,
    endings: Vec<(u32, u64)>,
    situations: Vec<(&'static str, u64)>,
}

impl Tally {
    /// Ending 0 is that a call was accepted, another is its refusal number.
    pub fn new(part: &'static str, endings: &[u32], situations: &[&'static str]) -> Tally {
        Tally {
            part,
            apart: false,
            calls: 0,
            endings: endings.iter().map(|&ending| (ending, 0)).collect(),
            situations: situations.iter().map(|&name| (name, 0)).collect(),
        }
    }

    /// Counts some calls apart that another tally counts too.
    pub fn apart(part: &'static str, endings: &[u32], situations: &[&'static str]) -> Tally {
        Tally {
            apart: true,
            ..Tally::new(part, endings, situations)
        }
    }

    pub fn ending(&mut self, number: u32) {
        let known = self
            .endings
            .iter_mut()
            .find(|(ending, _)| *ending == number);
        known.expect("an ending that can arise").1 += 1;
        self.calls += 1;
    }

    /// How often an ending was met so far.
    pub fn met(&self, number: u32) -> u64 {
        let known = self.endings.iter().find(|(ending, _)| *ending == number);
        known.expect("an ending that can arise").1
    }

    /// The calls that no other tally counts.
    pub fn own_calls(&self) -> u64 {
        match self.apart {
            true => 0,
            false => self.calls,
        }
    }

    /// Counts a situation, if it arose.
    pub fn situation(&mut self, name: &'static str, arose: bool) {
        let known = self.situations.iter_mut().find(|(known, _)| *known == name);
        known.expect("a listed situation").1 += u64::from(arose);
    }

    pub fn print_situations(&self) {
        if self.situations.is_empty() {
            return;
        }
        println!("\n{}: situations met", self.part);
        for (name, count) in &self.situations {
            println!("{count:>10}  {name}");
        }
    }

    /// What could have arisen and never did.
    pub fn never_met(&self) -> Vec<String> {
        let endings = self.endings.iter().filter(|(_, count)| *count == 0);
        let situations = self.situations.iter().filter(|(_, count)| *count == 0);
        let endings = endings.map(|(ending, _)| format!("{}: {}", self.part, named(*ending)));
        let situations = situations.map(|(name, _)| format!("{}: {name}", self.part));
        endings.chain(situations).collect()
    }
}

fn named(ending: u32) -> String {
    match ending {
        0 => "accepted".to_string(),
        number => format!("refused {number}"),
    }
}

/// Prints a line for each part: how often which refusal number was met, 0 for accepted.
pub fn print_endings(tallies: &[Tally]) {
    println!("\nendings met, by refusal number; 0 is accepted");
    for tally in tallies {
        print!("{:<15}{:>8} ", tally.part, tally.calls);
        for (ending, count) in &tally.endings {
            print!("  {ending}: {count}");
        }
        println!();
    }
}
