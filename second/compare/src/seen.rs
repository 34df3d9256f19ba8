//! How often each answer was seen, call by call.

use crate::calls::{Amount, Call};
use std::collections::{BTreeMap, BTreeSet};
use tally::Tally;

/// Counts by call and answer; 0 is acceptance. Only answers that both programs
/// gave alike are here.
#[derive(Clone, Debug, Default)]
pub struct Seen {
    counts: BTreeMap<(&'static str, u32), u64>,
    /// By call and kind of cases.
    amounts: BTreeMap<(&'static str, &'static str), u64>,
}

impl Seen {
    pub fn note(&mut self, call: &'static str, answer: u32) {
        *self.counts.entry((call, answer)).or_insert(0) += 1;
    }

    pub fn count(&self, call: &'static str, answer: u32) -> u64 {
        self.counts.get(&(call, answer)).copied().unwrap_or(0)
    }

    /// Counts further cases of a kind.
    pub fn add(&mut self, call: &'static str, what: &'static str, cases: u64) {
        *self.amounts.entry((call, what)).or_insert(0) += cases;
    }

    /// Counts all that another has counted too.
    pub fn merge(&mut self, other: &Seen) {
        for (answer, count) in &other.counts {
            *self.counts.entry(*answer).or_insert(0) += count;
        }
        for ((call, what), cases) in &other.amounts {
            self.add(call, what, *cases);
        }
    }

    /// Those that some call gave.
    pub fn refusals(&self) -> BTreeSet<u32> {
        let answers = self.counts.keys().map(|(_, answer)| *answer);
        answers.filter(|answer| *answer != 0).collect()
    }

    /// A line for each kind of cases.
    pub fn amounts(&self) -> String {
        let line = |((call, what), cases): (&(_, _), &u64)| format!("{call}: {cases} {what}");
        let lines: Vec<String> = self.amounts.iter().map(line).collect();
        lines.join("\n")
    }

    fn amount(&self, call: &'static str, what: &'static str) -> u64 {
        self.amounts.get(&(call, what)).copied().unwrap_or(0)
    }

    /// Each answer that a call can give must have been seen, and no other one;
    /// and there must be as many cases of each kind as it wants.
    pub fn check(&self, calls: &[&dyn Call]) -> Tally {
        let mut tally = self.check_answers(calls);
        tally.add(self.check_amounts(calls));
        tally
    }

    fn check_amounts(&self, calls: &[&dyn Call]) -> Tally {
        let mut tally = Tally::default();
        for call in calls {
            for Amount { what, least } in call.amounts() {
                let (name, amount) = (call.name(), self.amount(call.name(), what));
                match amount >= least {
                    true => println!("{name}: {amount} {what}, at least {least}"),
                    false => println!("FAILED: {name}: {amount} {what}, under {least}"),
                }
                tally.count(amount >= least);
            }
        }
        tally
    }

    fn check_answers(&self, calls: &[&dyn Call]) -> Tally {
        let mut tally = Tally::default();
        for call in calls {
            for answer in call.answers() {
                let reached = self.count(call.name(), *answer) > 0;
                if !reached {
                    println!("FAILED: {} never gave {}", call.name(), name(*answer));
                }
                tally.count(reached);
            }
        }
        for (call, answer) in self.out_of_place(calls) {
            println!("FAILED: {call} can't give {}, but did", name(answer));
            tally.count(false);
        }
        tally
    }

    fn out_of_place(&self, calls: &[&dyn Call]) -> Vec<(&'static str, u32)> {
        let gives = |name: &str, answer| {
            let mut named = calls.iter().filter(|call| call.name() == name);
            named.any(|call| call.answers().contains(&answer))
        };
        let seen = self.counts.keys().copied();
        seen.filter(|(call, answer)| !gives(call, *answer))
            .collect()
    }

    /// A row for each answer and a column for each call.
    pub fn table(&self, calls: &[&dyn Call]) -> String {
        let answers: BTreeSet<u32> = calls
            .iter()
            .flat_map(|call| call.answers().iter().copied())
            .collect();
        let mut text = format!("{:<12}", "seen");
        for call in calls {
            text.push_str(&format!(" {:>22}", call.name()));
        }
        for answer in answers {
            text.push_str(&format!("\n{:<12}", name(answer)));
            for call in calls {
                text.push_str(&format!(" {:>22}", self.cell(*call, answer)));
            }
        }
        text
    }

    fn cell(&self, call: &dyn Call, answer: u32) -> String {
        match call.answers().contains(&answer) {
            true => self.count(call.name(), answer).to_string(),
            false => "-".to_string(),
        }
    }
}

fn name(answer: u32) -> String {
    match answer {
        0 => "accepted".to_string(),
        _ => format!("refusal {answer}"),
    }
}
