//! What records are judged by.

use crate::ending::Failure;
use crate::named;
use crate::words::Words;
use gcr::{Model, Predicate};

#[derive(Clone, Copy, Debug, PartialEq, Eq)]
pub enum Question {
    Model(Model),
    Predicate(Predicate),
}

impl Question {
    pub fn kind(&self) -> &'static str {
        match self {
            Question::Model(_) => "model",
            Question::Predicate(_) => "predicate",
        }
    }

    pub fn number(&self) -> u32 {
        match self {
            Question::Model(model) => model.number(),
            Question::Predicate(predicate) => predicate.number(),
        }
    }

    pub fn name(&self) -> &'static str {
        match self {
            Question::Model(model) => model.name(),
            Question::Predicate(predicate) => predicate.name(),
        }
    }
}

/// Models first; the house's rule where nothing else is asked.
pub fn questions(words: &Words) -> Result<Vec<Question>, Failure> {
    let mut questions: Vec<Question> = named::models(words)?.into_iter().map(Question::Model).collect();
    let predicates = named::predicates(words)?;
    let all = if words.has("--all") { Predicate::ALL } else { &predicates };
    questions.extend(all.iter().copied().map(Question::Predicate));
    if questions.is_empty() {
        questions.push(Question::Model(Model::Causal));
    }
    Ok(questions)
}

/// `Causal`, or `RVal, SingleOrder`; of many how many.
pub fn names(questions: &[Question]) -> String {
    let is_model = |question: &&Question| matches!(question, Question::Model(_));
    let models = questions.iter().filter(is_model).count();
    let counted = |count: usize, what: &str| format!("{count} {what}{}", if count == 1 { "" } else { "s" });
    match questions.len() {
        0..4 => questions.iter().map(Question::name).collect::<Vec<_>>().join(", "),
        all if models == 0 => counted(all, "predicate"),
        all if models == all => counted(all, "model"),
        all => format!("{} and {}", counted(models, "model"), counted(all - models, "predicate")),
    }
}
