//! The stored outputs of the programs are what the reference makes, the sample inputs of `page` can
//! be made again, and the run-only cases show what they are there to show.

use std::collections::BTreeSet;
use std::fs;
use std::path::{Path, PathBuf};

use reference::listing::listing;
use reference::page::{page, PageSample};
use reference::program::respond;

/// A file or folder of the repository.
fn path(file: &str) -> PathBuf {
    Path::new(env!("CARGO_MANIFEST_DIR")).join("..").join(file)
}

fn stored(file: &str) -> Vec<u8> {
    fs::read(path(file)).unwrap_or_else(|error| panic!("{file}: {error}"))
}

/// What a line of the listing says of the memory.
fn digests(line: &str) -> &str {
    line.split_once("; ").expect("the line has digests").1
}

#[test]
fn the_output_of_qr() {
    let made = respond(&stored("crates/qr/stdin"));
    let stored = stored("crates/qr/stdout");
    assert!(made == stored, "crates/qr/stdout is another");
}

#[test]
fn the_output_of_page() {
    let made = page(&stored("crates/page/stdin"));
    let stored = stored("crates/page/stdout");
    assert!(made == stored, "crates/page/stdout is another");
}

#[test]
fn the_input_of_page_is_the_output_of_qr() {
    let written = stored("crates/qr/stdout");
    let read = stored("crates/page/stdin");
    assert!(written == read, "crates/page/stdin is another");
}

#[test]
fn the_sample_inputs_of_page_and_their_pages() {
    for sample in PageSample::ALL {
        let [input, text] =
            ["bin", "txt"].map(|kind| format!("examples/results/{}.{kind}", sample.name()));
        let made = sample.bytes();
        assert!(made == stored(&input), "{input} is another");
        assert!(page(&made) == stored(&text), "{text} is another");
    }
}

#[test]
fn no_other_sample_is_stored() {
    let names = PageSample::ALL.map(PageSample::name).into_iter();
    let files = names.flat_map(|name| ["bin", "txt"].map(|kind| format!("{name}.{kind}")));
    let expected: BTreeSet<String> = files.chain(["README.md".into()]).collect();
    let folder = fs::read_dir(path("examples/results")).expect("the folder is there");
    let names = folder.map(|entry| entry.expect("an entry of the folder").file_name());
    let found: BTreeSet<String> = names.map(|name| name.to_string_lossy().into()).collect();
    assert_eq!(found, expected);
}

#[test]
fn the_output_of_cases() {
    let stored = stored("crates/cases/stdout");
    let stored = String::from_utf8(stored).expect("the listing is text");
    let made = listing();
    for (number, (stored, made)) in stored.lines().zip(made.lines()).enumerate() {
        assert_eq!(stored, made, "line {}", number + 1);
    }
    assert_eq!(stored.len(), made.len());
}

#[test]
fn the_run_only_cases_are_there() {
    let listing = listing();
    for line in [
        "Load of 257 bytes into 512 words: number 0",
        "Load of 257 bytes into 513 words: number 0",
        "Load of 258 bytes into 513 words: number 2",
        "The 513th word is as it was",
        "Run of 119 from job (0, 0): number 0, next job (119, 119), count 119",
        "Run of 120 from job (0, 0): number 0, next job (120, 120), count 120",
        "Run of 121 from job (0, 0): number 0, next job (120, 120), count 120",
        "Run of 1 from job (119, 119): number 0, next job (120, 120), count 1",
        "Run of 1 from job (120, 120): number 0, next job (120, 120), count 0",
        "Fetch at job (120, 120): number 0",
        "A single element 1\n  Load of 257 bytes into 512 words: number 4",
        "All parts -32768\n  Load of 257 bytes into 512 words: number 4",
    ] {
        assert!(listing.contains(line), "the listing has no {line}");
    }
}

/// What the listing has behind a title, up to the next one.
fn lines_behind<'a>(listing: &'a str, title: &str) -> Vec<&'a str> {
    let lines = listing.lines().skip_while(|line| *line != title).skip(1);
    lines.take_while(|line| line.starts_with(' ')).collect()
}

#[test]
fn a_diagonal_is_heard_above_16_and_refused_otherwise() {
    let listing = listing();
    let refused = lines_behind(&listing, "A single element 1");
    for title in [
        "All parts -32768",
        "Diagonal real parts 16, all other parts 32767",
        "Diagonal real parts -17, all other parts 32767",
    ] {
        // The same line, with the digest of an area that is as it was.
        assert_eq!(lines_behind(&listing, title), refused, "{title}");
    }
    assert!(refused.len() == 1 && refused[0].contains("number 4, job (0, 0), heard 0;"));
    for (title, heard) in [
        ("Diagonal real parts 17, all other parts 32767", 255),
        (
            "Diagonal real parts 16 but antenna 5's 17, all other parts 32767",
            32,
        ),
    ] {
        let lines = lines_behind(&listing, title);
        let accepted = format!("number 0, job (0, 0), heard {heard};");
        assert!(lines.len() == 4 && lines[0].contains(&accepted), "{title}");
    }
}

/// A diagonal costs none of the turns and stays as it was loaded, a full matrix costs all, and half
/// of the antennas cost some.
#[test]
fn the_listing_shows_what_matrices_cost() {
    let listing = listing();
    for (title, made) in [
        ("A matrix with parts of all sizes", 120),
        ("Diagonal elements (32767, 0), all others 0", 0),
        ("Parts of all sizes for antennas 0 to 3, all others 0", 44),
    ] {
        let lines = lines_behind(&listing, title);
        let run = "Run of 120 from job (0, 0): number 0, next job";
        let line = lines.iter().find(|line| line.contains(run));
        let line = line.unwrap_or_else(|| panic!("{title}: no Run of all turns"));
        let next = format!("{run} (120, {made}), count 120,");
        assert!(line.contains(&next), "{title}: {line}");
        let unchanged = digests(lines[0]) == digests(line);
        assert_eq!(unchanged, made == 0, "{title}");
    }
}

#[test]
fn jobs_that_do_not_exist_are_refused_with_5_and_given_back() {
    let listing = listing();
    let lines = lines_behind(&listing, "Jobs, with parts of all sizes");
    let expected = [
        "Load of 257 bytes into 512 words: number 0, job (0, 0), heard 120;",
        "Run of 7 from job (5, 6): number 5, next job (5, 6), count 0,",
        "Fetch at job (5, 6): number 5;",
        "Run of 7 from job (121, 0): number 5, next job (121, 0), count 0,",
        "Run of 0 from job (6, 6): number 0, next job (6, 6), count 0,",
        "Fetch at job (119, 119): number 6;",
        "Fetch at job (120, 121): number 5;",
    ];
    assert_eq!(lines.len(), expected.len());
    for (line, expected) in lines.iter().zip(expected) {
        assert!(line.trim_start().starts_with(expected), "{line}");
    }
    for memory in ["area ", "buffer "] {
        let kept = lines.iter().map(|line| digests(line));
        let kept: BTreeSet<&str> = kept.filter(|digest| digest.starts_with(memory)).collect();
        assert_eq!(kept.len(), 1, "a call changed the {memory}");
    }
}

#[test]
fn no_run_of_the_listing_clamps_on_either_side() {
    let listing = listing();
    let mut runs = 0;
    for line in listing.lines().filter(|line| line.contains("Run of ")) {
        assert!(line.contains(", clamps 0 in R, 0 in Q; "), "{line}");
        runs += 1;
    }
    assert!(runs > 0);
}

#[test]
fn a_record_of_258_bytes_leaves_the_memory_as_it_was() {
    let listing = listing();
    let lines: Vec<&str> = listing.lines().collect();
    let refused = |pair: &&[&str]| pair[1].contains("of 258 bytes");
    for pair in lines.windows(2).filter(refused) {
        assert_eq!(digests(pair[0]), digests(pair[1]), "{}", pair[1]);
    }
}

#[test]
fn all_turns_leave_the_same_area_in_any_instalments() {
    let listing = listing();
    let (full, _) = listing.split_once("A single element 1").expect("a title");
    let (_, full) = full.split_once("513th").expect("the longer area");
    let mut worked = full
        .lines()
        .filter(|line| line.contains("next job (120, 120)"));
    let first = digests(worked.next().expect("a Run to the end"));
    assert!(worked.all(|line| digests(line) == first));
}
