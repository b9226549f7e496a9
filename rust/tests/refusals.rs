//! Document 01's numbers and their words.

use std::collections::HashSet;
use std::error::Error;

use deebqoshaan::{BookRefusal, Refusal, Refused};

#[test]
fn every_number_comes_back() {
    for refusal in Refusal::ALL {
        assert_eq!(Refusal::from_number(refusal.number()), Some(*refusal));
    }
    let given: Vec<u8> = (0..=u8::MAX).filter(|&number| Refusal::from_number(number).is_some()).collect();
    let numbers: Vec<u8> = (1..=23).chain(25..=32).chain(39..=48).collect();
    assert_eq!(given, numbers);
    assert_eq!(Refusal::ALL.len(), numbers.len());
}

#[test]
fn numbers_between_are_none() {
    for number in [0, 24, 33, 38, 49, u8::MAX] {
        assert_eq!(Refusal::from_number(number), None);
    }
}

#[test]
fn every_refusal_has_words_of_its_own() {
    let words: HashSet<String> = Refusal::ALL.iter().map(Refusal::to_string).collect();
    assert_eq!(words.len(), Refusal::ALL.len());
    assert!(words.iter().all(|said| said.len() > 8 && !said.ends_with('.')));
}

#[test]
fn errors_say_number_and_words() {
    let refused = Refused { refusal: Refusal::NotOwed, blocks: 0 };
    let book = BookRefusal { refusal: Refusal::NameUsed, offset: 159 };
    let said = |error: &dyn Error| error.to_string();
    assert_eq!(said(&refused), "refused 29: no reply owed for that number");
    assert_eq!(said(&book), "refused 48 at 159: name used before in its kind");
    assert_eq!(said(&Refusal::NotOwed), "no reply owed for that number");
}
