//! How often each answer came in a random run, so that a run which never meets
//! one of them is seen.

use crate::citation::Refusal;

/// A count for every refusal number, and at 0 for what is accepted.
#[derive(Default)]
pub struct Tally([u64; 13]);

impl Tally {
    pub fn count<T>(&mut self, result: &Result<T, Refusal>) {
        self.0[result.as_ref().err().map_or(0, |refusal| refusal.number as usize)] += 1;
    }

    /// The counts of these answers in their order, and no others may there be.
    pub fn text(&self, answers: &[u8]) -> String {
        let told = answers.iter().map(|answer| self.of(*answer)).sum::<u64>();
        assert!(told == self.0.iter().sum(), "an answer that cannot be");
        let texts: Vec<String> = answers.iter().map(|answer| self.one_text(*answer)).collect();
        texts.join(", ")
    }

    pub fn has_all(&self, answers: &[u8]) -> bool {
        answers.iter().all(|answer| self.of(*answer) > 0)
    }

    fn of(&self, answer: u8) -> u64 {
        self.0[answer as usize]
    }

    fn one_text(&self, answer: u8) -> String {
        match answer {
            0 => format!("accepted {}", self.of(0)),
            _ => format!("refused {}: {}", answer, self.of(answer)),
        }
    }
}

/// Which kinds from 0 to 7 came, and which name bytes in whole records of kind
/// 5.
pub struct Seen {
    kinds: [bool; 8],
    names: [bool; 256],
}

impl Seen {
    pub fn new() -> Seen {
        Seen { kinds: [false; 8], names: [false; 256] }
    }

    pub fn note(&mut self, input: &[u8]) {
        if input.len() >= 4 && input[2] < 8 && input[3] == 0 {
            self.kinds[input[2] as usize] = true;
        }
        if input.starts_with(&[10, 0, 5, 0]) && input.len() == 10 {
            self.names[input[9] as usize] = true;
        }
    }

    pub fn all(&self) -> bool {
        self.kinds.iter().chain(&self.names).all(|seen| *seen)
    }
}
