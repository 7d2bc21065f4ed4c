use independent::intake::{NARROW, report};
use std::fs;

#[test]
fn the_sample_is_answered_as_it_should_be() {
    let folder = concat!(env!("CARGO_MANIFEST_DIR"), "/../crates/dossier");
    let dossier = fs::read(format!("{folder}/stdin")).expect("the sample is there");
    let answer = fs::read(format!("{folder}/stdout")).expect("the sample's answer is there");
    assert_eq!(report(&dossier, NARROW), answer);
}

#[test]
fn an_empty_file_has_an_empty_tally() {
    assert_eq!(report(&[], NARROW), b"end 0 0 0\n");
}
