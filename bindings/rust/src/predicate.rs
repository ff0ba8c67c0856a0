//! The thirteen predicates.

numbered! {
    /// A condition on a record.
    ///
    /// ```
    /// use gcr::Predicate;
    ///
    /// let predicate = Predicate::try_from(5)?;
    /// assert_eq!((predicate.name(), predicate.number()), ("MonotonicReads", 5));
    /// assert_eq!(Predicate::try_from(14).unwrap_err().number, 2);
    /// assert_eq!("monotonic reads".parse(), Ok(predicate));
    /// assert_eq!("5".parse(), Ok(predicate));
    /// # Ok::<(), gcr::Refusal>(())
    /// ```
    Predicate:
    1 RVal "A returned read holds the value of the last write, by arbitration, that it sees on its object; where it \
            sees none there, the object's opening, or none if it has none."
    2 SingleOrder "Visibility is arbitration, but for pending events that nothing sees."
    3 RealTime "What returned before an event started, at another site by more than clocks may differ, is arbitrated \
                before it."
    4 RealTimeWrites "A write that returned before an event started, at another site by more than clocks may differ, \
                      is arbitrated before it."
    5 MonotonicReads "What one read of a site has seen, its later reads see too."
    6 ReadYourWrites "A site's reads see its earlier writes."
    7 MonotonicWrites "A site's writes are arbitrated in the site's order."
    8 WritesFollowReads "A write is arbitrated after the writes that an earlier read of its site has seen."
    9 Pram "An event sees all earlier events of its site."
    10 CausalVisibility "An event sees all that leads to it by site order and visibility."
    11 CausalArbitration "An event is arbitrated after all that leads to it by site order and visibility."
    12 PerObjectPram "An event sees the earlier events of its site on its object."
    13 PerObjectSingleOrder "On each object, visibility is arbitration, but for pending events that nothing sees."
}
