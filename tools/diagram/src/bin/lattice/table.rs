//! All lines together: which model covers which.

use crate::chains::{reached, Grid, Pair};
use crate::claim::{Claim, Model, Says, MODELS};

pub struct Table {
    pub names: Vec<String>,
    /// The customer's pairs.
    pub listed: Vec<Pair>,
    pub covers: Grid,
}

impl Table {
    /// The lines must tell of every pair of models, and nothing that the picture cannot show.
    pub fn read(lines: &str) -> Result<Table, String> {
        let claims = lines.lines().enumerate().map(claim).collect::<Result<Vec<Claim>, String>>()?;
        let covers = told(&claims)?;
        let listed: Vec<Pair> = claims.iter().filter(|claim| claim.says == Says::Listed).map(pair).collect();
        follows(&listed, &covers)?;
        claims.iter().enumerate().try_for_each(|(index, claim)| is_by(index, claim, &covers))?;
        Ok(Table { names: names(&claims)?, listed, covers })
    }

    /// A model as the lines name it.
    pub fn named(&self, model: usize) -> String {
        format!("{} {}", model + 1, self.names[model])
    }

    /// All that a model covers, in words.
    pub fn words(&self, model: usize) -> String {
        let covered: Vec<String> = self.covered(model).map(|other| self.named(other)).collect();
        let covered = if covered.is_empty() { "no other".to_string() } else { covered.join(", ") };
        format!("{} covers {covered}.", self.named(model))
    }

    fn covered(&self, model: usize) -> impl Iterator<Item = usize> + '_ {
        (0..MODELS).filter(move |&other| self.covers[model][other])
    }
}

fn claim((index, line): (usize, &str)) -> Result<Claim, String> {
    let number = index + 1;
    if line.starts_with("NOT SHOWN") {
        return Err(format!("line {number} says that something is not shown, so nothing is drawn: {line:?}"));
    }
    Claim::read(line).ok_or_else(|| format!("line {number} cannot be read: {line:?}"))
}

fn pair(claim: &Claim) -> Pair {
    (claim.first.number - 1, claim.second.number - 1)
}

/// Of each pair what its line says. There must be one line for each pair of two models.
fn told(claims: &[Claim]) -> Result<Grid, String> {
    let mut lines = [[None; MODELS]; MODELS];
    for (index, claim) in claims.iter().enumerate() {
        let (first, second) = pair(claim);
        if first == second || lines[first][second].is_some() {
            let why = if first == second { "tells of one model alone" } else { "tells what an earlier one told" };
            return Err(format!("line {} {why}", index + 1));
        }
        lines[first][second] = Some(claim.says != Says::Separated);
    }
    let mut covers = [[false; MODELS]; MODELS];
    for (first, second) in (0..MODELS).flat_map(|first| (0..MODELS).map(move |second| (first, second))) {
        match lines[first][second] {
            Some(covered) => covers[first][second] = covered,
            None if first == second => (),
            None => return Err(format!("no line tells whether {} covers {}", first + 1, second + 1)),
        }
    }
    Ok(covers)
}

/// What the lines call covered must be what chains of the customer's pairs lead to, and none may lead back.
fn follows(listed: &[Pair], covers: &Grid) -> Result<(), String> {
    let reached = reached(listed);
    for (first, second) in (0..MODELS).flat_map(|first| (0..MODELS).map(move |second| (first, second))) {
        let (one, other) = (first + 1, second + 1);
        match (reached[first][second], covers[first][second]) {
            (true, _) if first == second => return Err(format!("the table's pairs lead from {one} back to it")),
            (true, false) => return Err(format!("the table's pairs lead from {one} to {other}, which a line denies")),
            (false, true) => return Err(format!("no chain of the table's pairs leads from {one} to {other}")),
            _ => (),
        }
    }
    Ok(())
}

/// What a chain goes by must stand between its ends.
fn is_by(index: usize, claim: &Claim, covers: &Grid) -> Result<(), String> {
    let Says::Chained(Model { number, .. }) = claim.says else { return Ok(()) };
    let ((first, second), by) = (pair(claim), number - 1);
    match covers[first][by] && covers[by][second] {
        true => Ok(()),
        false => Err(format!("line {}: no chain leads by {number}", index + 1)),
    }
}

/// Every model has one name. Of each there are lines.
fn names(claims: &[Claim]) -> Result<Vec<String>, String> {
    let mut names = vec![String::new(); MODELS];
    for (index, claim) in claims.iter().enumerate() {
        for Model { number, name } in claim.models() {
            let known = &mut names[number - 1];
            if known.is_empty() {
                known.clone_from(name);
            } else if known != name {
                return Err(format!("line {} calls model {number} {name}, not {known}", index + 1));
            }
        }
    }
    Ok(names)
}
