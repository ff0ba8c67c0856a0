//! The thirteen models.

use crate::Predicate;

numbered! {
    /// A consistency model: a list of predicates.
    ///
    /// ```
    /// use gcr::Model;
    ///
    /// assert_eq!(Model::Causal.number(), 4);
    /// assert_eq!(Model::ALL.len(), 13);
    /// assert_eq!(Model::try_from(13)?.to_string(), "SlowMemory");
    /// assert_eq!("real-time causal".parse(), Ok(Model::RealTimeCausal));
    /// assert!("casual".parse::<Model>().is_err());
    /// # Ok::<(), gcr::Refusal>(())
    /// ```
    Model:
    1 Linearizable "One order of all events that keeps to real time, and every read is right by it."
    2 Regular "One order of all events that keeps writes to real time, and every read is right by it."
    3 Sequential "One order of all events that keeps to each site's order, and every read is right by it."
    4 Causal "Cause goes before effect in visibility and arbitration, and every read is right by them."
    5 RealTimeCausal "Causal, and arbitration keeps to real time."
    6 Processor "One order for each object, each site's order is seen, and every read is right by them."
    7 PerObjectSequential "One order for each object that keeps to each site's order there, and every read is right."
    8 Pram "An event sees all earlier events of its site."
    9 MonotonicReads "What one read of a site has seen, its later reads see too."
    10 ReadYourWrites "A site's reads see its earlier writes."
    11 MonotonicWrites "A site's writes are arbitrated in the site's order."
    12 WritesFollowReads "A write is arbitrated after the writes that an earlier read of its site has seen."
    13 SlowMemory "An event sees the earlier events of its site on its object."
}

impl Model {
    /// The predicates that it asks, in its order: it is met where all of them are, and breaks at the first that breaks.
    ///
    /// ```
    /// use gcr::{Model, Predicate};
    ///
    /// let causal = [Predicate::CausalVisibility, Predicate::CausalArbitration, Predicate::RVal];
    /// assert_eq!(Model::Causal.predicates(), causal);
    /// ```
    pub const fn predicates(self) -> &'static [Predicate] {
        use Predicate::*;
        match self {
            Model::Linearizable => &[SingleOrder, RealTime, RVal],
            Model::Regular => &[SingleOrder, RealTimeWrites, RVal],
            Model::Sequential => &[SingleOrder, Pram, RVal],
            Model::Causal => &[CausalVisibility, CausalArbitration, RVal],
            Model::RealTimeCausal => &[CausalVisibility, CausalArbitration, RealTime, RVal],
            Model::Processor => &[PerObjectSingleOrder, Pram, RVal],
            Model::PerObjectSequential => &[PerObjectSingleOrder, PerObjectPram, RVal],
            Model::Pram => &[Pram],
            Model::MonotonicReads => &[MonotonicReads],
            Model::ReadYourWrites => &[ReadYourWrites],
            Model::MonotonicWrites => &[MonotonicWrites],
            Model::WritesFollowReads => &[WritesFollowReads],
            Model::SlowMemory => &[PerObjectPram],
        }
    }
}
