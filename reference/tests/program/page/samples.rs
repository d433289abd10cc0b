//! The stored inputs and pages of `examples/results`.

use std::fs;
use std::path::Path;

use reference::page::PageSample;

use super::compared::Compared;
use super::rules::OtherPages;
use crate::run::PAGE;

fn stored(sample: PageSample, extension: &str) -> Vec<u8> {
    let folder = Path::new(env!("CARGO_MANIFEST_DIR")).join("../examples/results");
    let path = folder.join(sample.name()).with_extension(extension);
    fs::read(&path).unwrap_or_else(|error| panic!("{}: {error}", path.display()))
}

/// They also show each other rule to be another.
#[test]
fn the_program_writes_the_stored_pages() {
    let mut compared = Compared::default();
    let mut noticed = OtherPages::NONE;
    for sample in PageSample::ALL {
        let input = stored(sample, "bin");
        let page = stored(sample, "txt");
        assert!(PAGE.output_at_once(&input) == page, "{sample:?}");
        compared.compare(&input);
        noticed.look(&input);
    }
    compared.print("Stored inputs");
    noticed.print_and_require_all_rules("Stored inputs");
}
