//! A round holds every class as often as its weight says, and a seed gives the same cases again.

use std::collections::BTreeMap;

#[test]
fn a_round_has_each_class_by_its_weight() {
    let mut counts = BTreeMap::new();
    for index in 0..cases::round() as u64 {
        *counts.entry(cases::class_of(index).name).or_insert(0) += 1;
    }
    for class in cases::CLASSES {
        assert_eq!(counts[class.name], class.weight, "{}", class.name);
    }
}

#[test]
fn a_seed_gives_the_same_cases() {
    for index in 0..500 {
        assert!(cases::case(3, index) == cases::case(3, index));
    }
    assert!((0..500).any(|index| cases::case(3, index) != cases::case(4, index)));
}

#[test]
fn sheets_of_the_limit_have_their_length() {
    for length in 65_530..=65_540 {
        let sheet = cases::of_length(&mut cases::Random::for_case(5, length), "घरले", length as usize);
        assert_eq!(sheet.len(), length as usize);
        assert_eq!(acceptance::check_sheet(&sheet).is_ok(), length <= 65_536);
    }
}

#[test]
fn every_number_comes() {
    let mut seen = [0; 7];
    for index in 0..3_000 {
        let case = cases::case(1, index);
        let number = acceptance::check(&case.word, &case.sheet).err().map_or(0, |refusal| refusal.number);
        seen[number as usize] += 1;
    }
    assert!(seen.iter().all(|&count| count > 0), "{seen:?}");
}
