//! Numbers of predicates and models.

use gcr::{Model, Predicate, Refusal};

#[test]
fn numbers_lead_back_to_what_has_them() {
    for number in 1..=13 {
        assert_eq!(Predicate::try_from(number).map(Predicate::number), Ok(number));
        assert_eq!(Model::try_from(number).map(Model::number), Ok(number));
    }
}

#[test]
fn other_numbers_are_refused_as_the_library_refuses_them() {
    for number in [0, 14, u32::MAX] {
        assert_eq!(Predicate::try_from(number), Err(Refusal { number: 2, place: 0 }));
        assert_eq!(Model::try_from(number), Err(Refusal { number: 2, place: 0 }));
    }
}
