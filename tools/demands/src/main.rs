//! Writes `docs/DEMANDS.md` and `docs/PINS.md` from `docs/demands.txt` and the tree; with `--check`
//! says whether they are up to date, and whether what the documents cite is there. Run at the top of
//! the repository.
use std::path::Path;
use std::process::ExitCode;
use std::{env, fs};

mod cited;
mod documents;
mod fault;
mod item;
mod kind;
mod page;
mod pins;
mod scan;
mod source;
mod tree;

use fault::Fault;
use kind::Kind;
use pins::Named;
use source::Block;
use tree::{Found, Tree};

const SOURCE: &str = "docs/demands.txt";
const DEMANDS: &str = "docs/DEMANDS.md";
const PINS: &str = "docs/PINS.md";

/// A page as it should be.
struct Page {
    path: &'static str,
    text: String,
}

/// What was made of the tree: the pages, what is wrong, and what is said when nothing is.
#[derive(Default)]
struct Made {
    pages: Vec<Page>,
    faults: Vec<String>,
    said: Vec<String>,
}

fn main() -> ExitCode {
    let words: Vec<String> = env::args().skip(1).collect();
    let made = match words.iter().map(String::as_str).collect::<Vec<_>>()[..] {
        [] => made(false),
        ["--check"] => made(true),
        _ => Err("usage: demands [--check]".to_string()),
    };
    let (said, faults) = match made {
        Ok(made) => (made.said, made.faults),
        Err(fault) => (Vec::new(), vec![fault]),
    };
    if faults.is_empty() {
        println!("{}", said.join("\n"));
        return ExitCode::SUCCESS;
    }
    for fault in faults {
        eprintln!("{fault}");
    }
    ExitCode::FAILURE
}

/// Writes both pages, or compares them and checks the documents. A page is left out where its
/// source is so wrong that there is none.
fn made(check: bool) -> Result<Made, String> {
    let texts = scan::texts(Path::new(".")).map_err(|error| error.to_string())?;
    let text = texts
        .get(SOURCE)
        .ok_or_else(|| format!("there is no {SOURCE}"))?;
    let tree = Tree::new(Path::new("."), scan::items(&texts));
    let mut made = Made::default();
    match source::parse(text) {
        Err(faults) => made.faults = said(faults),
        Ok(blocks) => {
            demands(&mut made, &blocks, &tree);
            pinned(&mut made, &blocks, &tree, &texts);
        }
    }
    let page = if check { compare } else { write };
    made.faults.extend(made.pages.iter().filter_map(page));
    if check {
        let (count, faults) = documents::check(&texts);
        made.faults.extend(faults);
        made.said.push(format!("docs: {count} references checked"));
    }
    Ok(made)
}

fn demands(made: &mut Made, blocks: &[Block], tree: &Tree) {
    let is_sentence = |block: &&Block| matches!(block, Block::Sentence(_));
    let count = blocks.iter().filter(is_sentence).count();
    made.said.push(format!(
        "demands: {count} sentences, each with its carriers"
    ));
    match page::page(blocks, tree) {
        Ok(text) => made.pages.push(Page {
            path: DEMANDS,
            text,
        }),
        Err(faults) => made.faults.extend(said(faults)),
    }
}

fn pinned(made: &mut Made, blocks: &[Block], tree: &Tree, texts: &scan::Texts) {
    // a name that is not found is told with the first page
    let found = |kind| -> Vec<Found> {
        let names = cited::cited(blocks, kind).into_iter();
        names
            .filter_map(|(_, name)| tree.find(kind, name).ok())
            .collect()
    };
    let mut offered = Vec::new();
    for block in blocks {
        if let Block::Offered(line, names) = block {
            for name in names {
                match tree.find(Kind::Contract, name) {
                    Ok(found) => offered.push(found),
                    Err(what) => made.faults.push(format!("{SOURCE}:{line}: {what}")),
                }
            }
        }
    }
    if offered.is_empty() {
        made.faults.push(format!(
            "{SOURCE}: no line `@offered` names the calls offered to others"
        ));
    }
    let named = Named {
        theorems: found(Kind::Theorem),
        offered,
        programs: found(Kind::Wrong),
    };
    let pins = pins::pins(texts, &named);
    made.faults.extend(pins.faults);
    made.said.push(pins.said);
    made.pages.push(Page {
        path: PINS,
        text: pins.page,
    });
}

fn said(faults: Vec<Fault>) -> Vec<String> {
    let place = |line| {
        if line == 0 {
            SOURCE.to_string()
        } else {
            format!("{SOURCE}:{line}")
        }
    };
    faults
        .into_iter()
        .map(|fault| format!("{}: {}", place(fault.line), fault.what))
        .collect()
}

fn write(page: &Page) -> Option<String> {
    let failed = fs::write(page.path, &page.text).err();
    failed.map(|error| format!("{}: {error}", page.path))
}

fn compare(page: &Page) -> Option<String> {
    let stored = match fs::read_to_string(page.path) {
        Ok(stored) => stored,
        Err(error) => return Some(format!("{}: {error}", page.path)),
    };
    let lines = stored.lines().zip(page.text.lines());
    let same = lines.take_while(|(a, b)| a == b).count();
    (stored != page.text).then(|| {
        format!(
            "{}:{}: not what {SOURCE} and the tree give: `make demands` writes it",
            page.path,
            same + 1
        )
    })
}
