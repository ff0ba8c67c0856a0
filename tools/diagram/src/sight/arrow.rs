//! An arrow from one event to another, and what it says.

#[derive(Clone, Copy, Debug, PartialEq, Eq)]
pub struct Arrow {
    pub from: usize,
    pub to: usize,
    pub says: Says,
}

#[derive(Clone, Copy, Debug, PartialEq, Eq)]
pub enum Says {
    /// The second sees the first, and all that the first sees.
    SeesAll,
    /// The second sees the first, but not all that the first sees.
    SeesAlone,
    /// Of a break: the second sees the first.
    Sees,
    /// Of a break: the second does not see the first, and should.
    Unseen,
    /// Of a break: arbitration places the first before the second.
    Placed,
    /// Of a break: arbitration does not place the first before the second, and should; both are one event.
    Unplaced,
}

impl Arrow {
    pub fn new(from: usize, to: usize, says: Says) -> Arrow {
        Arrow { from, to, says }
    }

    /// What it says, for a viewer to show on pointing at it, where all events are drawn or some are not.
    pub fn words(&self, is_part: bool) -> String {
        let all = if is_part { "all drawn events" } else { "all" };
        let (first, second) = (format!("event {}", self.from), format!("event {}", self.to));
        match self.says {
            Says::SeesAll => format!("{second} sees {first} and {all} that {first} sees"),
            Says::SeesAlone => format!("{second} sees {first}, but not {all} that {first} sees"),
            Says::Sees => format!("{second} sees {first}"),
            Says::Unseen => format!("{second} does not see {first}"),
            Says::Placed => format!("arbitration places {first} before {second}"),
            Says::Unplaced => format!("arbitration does not place {first} before {second}"),
        }
    }
}

impl Says {
    pub fn is_of_break(self) -> bool {
        !matches!(self, Says::SeesAll | Says::SeesAlone)
    }

    /// What is missing is crossed.
    pub fn is_missing(self) -> bool {
        matches!(self, Says::Unseen | Says::Unplaced)
    }

    pub fn class(self) -> &'static str {
        match self {
            Says::SeesAll => "seen all",
            Says::SeesAlone => "seen alone",
            Says::Sees => "break sees",
            Says::Unseen => "break unseen",
            Says::Placed => "break placed",
            Says::Unplaced => "break unplaced",
        }
    }
}
