//! What is asked of a record, and what the library finds.

mod asked;
mod broken;
mod verdicts;

pub use asked::{Asked, Breaks};
pub use broken::{events, Broken};
pub use verdicts::{Break, Verdicts};

use gcr::{Model, Predicate};

/// A verdict with the words that tell it.
pub struct Finding {
    /// What was asked: `predicate 5 MonotonicReads`, or `model 4 Causal`.
    name: String,
    /// What that asks, in plain words.
    pub sentences: Vec<&'static str>,
    pub broken: Option<Broken>,
    /// By which predicate a model is broken, as ` by predicate 10 CausalVisibility`; else nothing.
    by: String,
}

impl Finding {
    /// Of a predicate that is broken so, or is met.
    pub fn of_predicate(asked: Predicate, broken: Option<Broken>) -> Finding {
        Finding { name: named(asked), sentences: vec![asked.sentence()], broken, by: String::new() }
    }

    /// The same of a model.
    pub fn of_model(asked: Model, broken: Option<Broken>) -> Finding {
        let predicate = broken.as_ref().map(|broken| broken.predicate);
        let by = predicate.map_or(String::new(), |predicate| format!(" by {}", named(predicate)));
        let mut sentences = vec![asked.sentence()];
        sentences.extend(predicate.map(Predicate::sentence));
        sentences.dedup();
        Finding { name: format!("model {} {asked}", asked.number()), sentences, broken, by }
    }

    /// `predicate 5 MonotonicReads is broken at events 0 and 2`, or `model 4 Causal is met`.
    pub fn verdict(&self) -> String {
        match &self.broken {
            None => format!("{} is met", self.name),
            Some(broken) => format!("{} is broken{} at {}", self.name, self.by, broken.events()),
        }
    }
}

fn named(predicate: Predicate) -> String {
    format!("predicate {} {predicate}", predicate.number())
}
