//! The proved call and the baseline's over the same input.

use crate::inputs::Input;
use second::limits::{ENTRIES, MOST_BYTES, WORK_WORDS};
use std::fmt::Debug;
use std::hint::black_box;
use std::rc::Rc;

/// Which of the two.
#[derive(Clone, Copy, Debug, PartialEq, Eq)]
pub enum Side {
    Proved,
    Baseline,
}

/// The buffers that a call is lent, a set for each side.
#[derive(Clone, Debug, PartialEq, Eq)]
pub struct Lent {
    pub words: Vec<u64>,
    pub events: Vec<u16>,
    pub record: Vec<u8>,
    pub answers: Vec<u8>,
}

impl Lent {
    /// Filled with something else than zero, so that a call's zeros show.
    fn for_input(input: &Input) -> Lent {
        let answers = vec![7; input.bytes.len()];
        Lent { words: vec![7; WORK_WORDS], events: vec![7; ENTRIES], record: vec![7; MOST_BYTES], answers }
    }
}

/// A call with its input, whatever type it answers with.
pub trait Both {
    fn call(&mut self, side: Side);

    /// Both answer alike and leave their buffers alike, or a comparison of their speed would mean nothing.
    fn check(&mut self);
}

/// The proved call answers with the bindings' types. Telling them as the baseline's number is left out of what is
/// measured.
pub struct Calls<A, P, B> {
    pub input: Rc<Input>,
    pub proved: P,
    pub told: fn(A, &mut Lent) -> u64,
    pub baseline: B,
    lent: [Lent; 2],
}

impl<A, P, B> Calls<A, P, B>
where
    P: Fn(&Input, &mut Lent) -> A,
    B: Fn(&Input, &mut Lent) -> u64,
{
    pub fn new(input: &Rc<Input>, proved: P, told: fn(A, &mut Lent) -> u64, baseline: B) -> Calls<A, P, B> {
        let lent = Lent::for_input(input);
        Calls { input: input.clone(), proved, told, baseline, lent: [lent.clone(), lent] }
    }
}

impl<A, P, B> Both for Calls<A, P, B>
where
    P: Fn(&Input, &mut Lent) -> A,
    B: Fn(&Input, &mut Lent) -> u64,
{
    fn call(&mut self, side: Side) {
        let input = black_box(&*self.input);
        match side {
            Side::Proved => drop(black_box((self.proved)(input, &mut self.lent[0]))),
            Side::Baseline => drop(black_box((self.baseline)(input, &mut self.lent[1]))),
        }
    }

    fn check(&mut self) {
        let [first, second] = &mut self.lent;
        let answer = (self.proved)(&self.input, first);
        let answer = (self.told)(answer, first);
        assert_eq!(answer, (self.baseline)(&self.input, second));
        assert!(first == second, "the two leave different buffers");
    }
}
