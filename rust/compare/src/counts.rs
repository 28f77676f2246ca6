//! How many cases were compared, by kind and call, and which refusals were met.

use crate::case::{Ask, Case, Outcome};
use reference::layout::{CHARGES, TRADE_COUNT};
use std::collections::BTreeMap;

#[derive(Default)]
pub struct Counts {
    by: BTreeMap<(&'static str, &'static str), [u64; 20]>,
    runs_that_moved: u64,
    rolls_that_charged: u64,
}

impl Counts {
    pub fn add(&mut self, kind: &'static str, call: &'static str, number: u8) {
        let numbers = self.by.entry((kind, call)).or_default();
        numbers[usize::from(number).min(19)] += 1;
    }

    /// Runs that moved shares, and rolls that offset something or charged a record of 0 shares.
    pub fn add_effect(&mut self, case: &Case, outcome: &Outcome) {
        match case.ask {
            Ask::Run(_) if outcome.figures[0] > 0 => self.runs_that_moved += 1,
            Ask::Roll
                if outcome.number == 0 && outcome.book[CHARGES..TRADE_COUNT].iter().any(|&b| b != 0) =>
            {
                self.rolls_that_charged += 1;
            }
            _ => {}
        }
    }

    pub fn cases(&self) -> u64 {
        self.by.values().flatten().sum()
    }

    /// One line for each kind and call, and one for all: cases, and how often each number was the answer.
    pub fn print(&self) {
        println!("{:<34}{:>9}   answers (0: accepted)", "kind, call", "cases");
        let mut all = [0; 20];
        for ((kind, call), numbers) in &self.by {
            println!(
                "{:<34}{:>9}   {}",
                format!("{kind}, {call}"),
                numbers.iter().sum::<u64>(),
                shown(numbers)
            );
            for (sum, number) in all.iter_mut().zip(numbers) {
                *sum += number;
            }
        }
        println!("{:<34}{:>9}   {}", "all", self.cases(), shown(&all));
        let unmet: Vec<String> =
            (1..20).filter(|&number| all[number] == 0).map(|number| number.to_string()).collect();
        println!(
            "direct runs that moved shares: {}; direct rolls that charged: {}",
            self.runs_that_moved, self.rolls_that_charged
        );
        println!("refusals not met: {} (13: no sound book gives it)", unmet.join(", "));
    }
}

fn shown(numbers: &[u64; 20]) -> String {
    let met = numbers.iter().enumerate().filter(|(_, &count)| count > 0);
    met.map(|(number, count)| format!("{number}:{count}")).collect::<Vec<_>>().join(" ")
}
