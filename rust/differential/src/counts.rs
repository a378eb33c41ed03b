//! What a run of the harness has seen.

use crate::trial::Entry;
use cases::Answer;

/// The refusals that each entry can give.
const ASKED: [(Entry, &[usize]); 5] = [
    (Entry::Read, &[1, 2, 3, 4]),
    (Entry::Run, &[1, 2, 3, 4, 6, 7, 10, 11]),
    (Entry::Check, &[1, 2, 3, 4, 8, 9]),
    (Entry::Find, &[1, 2, 3, 4, 8]),
    (Entry::Level, &[1, 2, 3, 4, 5, 6, 7, 8, 9]),
];
const NUMBERS: usize = 12;

#[derive(Default)]
pub struct Counts {
    pub cases: u64,
    pub calls: u64,
    answers: [[u64; NUMBERS]; 5],
    /// Finished, out of steps, too deep, from index 1.
    endings: [u64; 4],
    pub readable: u64,
    pub largest_book: usize,
    pub largest_summary: u64,
    pub most_rounds: u64,
    pub most_steps: u64,
    /// Pairs of finished runs with inputs that differ only above the level, or outside the set.
    pub pairs: u64,
    pub differences: u64,
}

impl Counts {
    pub fn count(&mut self, entry: Entry, answer: Answer) {
        self.calls += 1;
        if let Some(count) = self.answers[entry as usize].get_mut(answer.refusal as usize) {
            *count += 1;
        }
        if answer.refusal != 0 {
            return;
        }
        match entry {
            Entry::Run => {
                self.endings[(answer.fields[0] as usize).min(3)] += 1;
                self.most_steps = self.most_steps.max(answer.fields[2]);
            }
            Entry::Find => {
                self.largest_summary = self.largest_summary.max(answer.fields[0]);
                self.most_rounds = self.most_rounds.max(answer.fields[1]);
            }
            _ => {}
        }
    }

    /// The refusals that some entry could have given and never gave.
    pub fn unseen(&self) -> Vec<String> {
        let mut unseen = Vec::new();
        for (entry, numbers) in ASKED {
            for &number in numbers {
                if self.answers[entry as usize][number] == 0 {
                    unseen.push(format!("{} refusal {number}", entry.name()));
                }
            }
        }
        unseen
    }

    pub fn print(&self) {
        println!(
            "books: {} readable, the largest {} bytes; summaries up to {} bytes; up to {} rounds; \
             up to {} steps",
            self.readable,
            self.largest_book,
            self.largest_summary,
            self.most_rounds,
            self.most_steps
        );
        println!(
            "runs: {} finished, {} out of steps, {} too deep; pairs for demand 3: {}",
            self.endings[1], self.endings[2], self.endings[3], self.pairs
        );
        println!("answers seen, by refusal number (0: not refused):");
        print!("{:>8}", "");
        (0..NUMBERS).for_each(|number| print!("{number:>8}"));
        println!();
        for (entry, _) in ASKED {
            print!("{:>8}", entry.name());
            self.answers[entry as usize].iter().for_each(|count| print!("{count:>8}"));
            println!();
        }
        print!("{:>8}", "all");
        for number in 0..NUMBERS {
            print!("{:>8}", self.answers.iter().map(|entry| entry[number]).sum::<u64>());
        }
        println!();
        println!("{} cases, {} calls, {} differences", self.cases, self.calls, self.differences);
    }
}
