//! A module: counts what came, by question and answer.
//!
//! `floors.rs`, `grants.rs`, `places.rs`, `speeds.rs`, `waits.rs` and `warnings.rs`
//! ask. A case that never came is named.

#![forbid(unsafe_code)]

/// What is asked of a case, the answers there are, and the number of the one
/// that it gives, if it gives one.
pub type Question<T> = (&'static str, &'static [&'static str], fn(&T) -> Option<usize>);

/// How often each answer came.
pub struct Answers<T: 'static> {
    counts: Vec<(&'static Question<T>, Vec<u64>)>,
}

impl<T> Answers<T> {
    pub fn to(questions: impl Iterator<Item = &'static Question<T>>) -> Answers<T> {
        let counts = questions.map(|question| (question, vec![0; question.1.len()])).collect();
        Answers { counts }
    }

    pub fn count(&mut self, case: &T) {
        for ((_, _, answer), counts) in &mut self.counts {
            if let Some(number) = answer(case) {
                counts[number] += 1;
            }
        }
    }

    /// The counts, a line for each question, each after the same words.
    pub fn lines(&self, words: &str) -> String {
        let mut lines = String::new();
        for ((about, answers, _), counts) in &self.counts {
            let answers = answers.iter().zip(counts);
            let counted: Vec<String> = answers.map(|(a, n)| format!("{} x {}", a, n)).collect();
            lines.push_str(&format!("{}: {}: {}\n", words, about, counted.join("; ")));
        }
        lines
    }

    /// The first answer that never came, with its question.
    pub fn missing(&self) -> Option<String> {
        self.counts.iter().find_map(|((about, answers, _), counts)| {
            let never = counts.iter().position(|&count| count == 0)?;
            Some(format!("{}: {}", about, answers[never]))
        })
    }
}
