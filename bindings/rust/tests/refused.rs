//! What a refusal says.
#![forbid(unsafe_code)]

use ace::Refused;

#[test]
fn the_words_are_the_tables() {
    for (number, place, text) in [
        (2, 0, "refusal 2: num_vars odd or zero"),
        (7, 5, "refusal 7: a cell is p or more, place 5"),
        (
            9,
            3,
            "refusal 9: left operand not yet made, or id at least num_wires, place 3",
        ),
        (
            17,
            1,
            "refusal 17: number outside its field's range, place 1",
        ),
        (23, 0, "refusal 23: bytes left over"),
        (26, 0, "refusal 26: clock not in it"),
    ] {
        assert_eq!(Refused { number, place }.to_string(), text);
    }
}

#[test]
fn every_number_has_its_own_words() {
    let words = |number| Refused { number, place: 0 }.given_when();
    let told: std::collections::BTreeSet<_> = (0..=26).map(words).collect();
    assert_eq!(told.len(), 27);
}
