//! Nothing true is refuted by the archive: tests/soundness.sh.

use archive::Archive;
use differential::soundness::{refutes, searched, tried_at_random};

#[test]
fn nothing_true_is_refuted_by_the_archive() {
    let mut archive = Archive::of_this_interface().expect("this interface");
    let tallies = searched(|text, records| refutes(&mut archive, text, records));
    println!("permitted steps: {tallies:?}");
    let tried = tried_at_random(&mut archive);
    println!("any steps: {tried} true formulas");
}
