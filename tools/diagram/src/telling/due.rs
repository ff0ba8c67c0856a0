//! What predicates ask of two events.

use gcr::Predicate;

#[derive(Clone, Copy, Debug, PartialEq, Eq)]
pub enum Due {
    /// The first, a read, holds what the second wrote.
    Value,
    /// The second sees the first just where arbitration places it after the first.
    SameOrder,
    /// The second sees the first.
    Sight,
    /// Arbitration places the second after the first.
    Place,
}

impl Due {
    pub fn by(predicate: Predicate) -> Due {
        use Predicate::*;
        match predicate {
            RVal => Due::Value,
            SingleOrder | PerObjectSingleOrder => Due::SameOrder,
            MonotonicReads | ReadYourWrites | Pram | CausalVisibility | PerObjectPram => Due::Sight,
            RealTime | RealTimeWrites | MonotonicWrites | WritesFollowReads | CausalArbitration => Due::Place,
        }
    }
}
