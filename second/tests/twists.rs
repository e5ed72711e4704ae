//! Every twist of operators' XML is told by a fixed text; only in a build with the twists. In a file of its own, since a twist
//! chosen is chosen for all tests of a file.

#![cfg(feature = "twists")]

use second::mutants::{of_xml, telling_text, texts};
use second::twist::ALL;

#[test]
fn twists_of_xml_are_told() {
    let texts = texts();
    let of_xml = ALL.iter().filter(|(twist, _)| of_xml(*twist));
    for &(twist, text) in of_xml {
        let told = telling_text(twist, &texts);
        println!("{twist:?} by {}", told.map_or("NONE", |by| &by.label));
        assert!(told.is_some(), "{twist:?}: {text}");
    }
}
