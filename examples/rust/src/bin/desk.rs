//! A hub serves its eight sectors by one desk: gives each a share of a round, hands in a record for
//! each, requests turns for all of them in round after round until their jobs are finished, and
//! compares each result, byte for byte, with what Whole makes of the same record. One sector requests
//! all that it can and more, and the others are served all the same. Another one has its next matrix
//! early: it is handed in while the first is worked, waits in the desk, and is brought in when the
//! first is fetched. All this is done for the operator. A viewer and a fitter look at the first result
//! of that sector before the operator has fetched it: the viewer gets the heard byte and no result, and
//! the fitter the result, which leaves the next matrix waiting.
//!
//! ```text
//! cargo run -p instalments --bin desk [RECORD...]
//! ```
//!
//! The records, eight at most, are those of sectors 0, 1 and on; a sector without one is never
//! loaded. The last of them is also the one that comes early. Without an argument it takes sample
//! records, seen from the top of the repository. One of them is refused, so its sector is never loaded
//! either.
use std::env;
use std::ffi::OsString;
use std::fs::File;
use std::io::{self, ErrorKind, Read, Write};
use std::path::{Path, PathBuf};
use std::process::ExitCode;

use hubqr::Role::{self, Fitter, Operator, Viewer};
use hubqr::{Desk, HandedIn, Refusal};
use hubqr::{AREA_WORDS, MATRIX_RECORD_BYTES, RESULT_RECORD_BYTES, ROUND_TURNS, SECTORS, TURNS};

/// Sectors 0 and 5 are busy and get more than the others. What the others have at a new desk would be
/// too many beside that.
const TOO_MANY: [u16; SECTORS] = [35, 15, 15, 15, 15, 25, 15, 15];
const SHARES: [u16; SECTORS] = [35, 10, 10, 10, 10, 25, 10, 10];

/// The sector that requests all 120 turns of each round, twice. The others request their share.
const GREEDY: usize = 5;

/// The sector whose next matrix is early, and the round in which it is handed in.
const EARLY: usize = 0;
const EARLY_ROUND: u32 = 2;

const RECORDS: &str = "examples/records";

/// The records of sectors 0 to 7 where none is named.
const SAMPLES: [&str; SECTORS] = [
    "hermitian.bin",
    "loose-plug.bin",
    "extremes.bin",
    "single.bin",
    "zeros.bin",
    "hermitian.bin",
    "extremes.bin",
    "loose-plug.bin",
];

/// A record as it was read.
#[derive(Clone, Default)]
struct Matrix {
    path: PathBuf,
    record: Vec<u8>,
}

/// What the hub keeps for a sector beside the desk.
struct Sector {
    /// The one that is worked.
    matrix: Matrix,
    area: [i32; AREA_WORDS],
    /// Those in which it was served.
    rounds: u32,
}

struct Hub {
    desk: Desk,
    sectors: [Sector; SECTORS],
    /// The one that comes early.
    next: Matrix,
}

fn main() -> ExitCode {
    let arguments: Vec<OsString> = env::args_os().skip(1).collect();
    if arguments.len() > SECTORS {
        eprintln!("usage: desk [RECORD...]    {SECTORS} records at most");
        return ExitCode::from(2);
    }
    let paths: Vec<PathBuf> = match arguments.is_empty() {
        true => SAMPLES.map(|name| Path::new(RECORDS).join(name)).to_vec(),
        false => arguments.into_iter().map(PathBuf::from).collect(),
    };
    let matrices: Result<Vec<Matrix>, String> = paths.into_iter().map(read_record).collect();
    let served = matrices.map(|matrices| serve(&matrices, &mut io::stdout().lock()));
    let sentence = match served {
        Ok(Ok(true)) => return ExitCode::SUCCESS,
        Ok(Ok(false)) => return ExitCode::from(1),
        // A reader that stopped early, as `head` does, is no failure.
        Ok(Err(error)) if error.kind() == ErrorKind::BrokenPipe => return ExitCode::SUCCESS,
        Ok(Err(error)) => format!("standard output: {error}"),
        Err(sentence) => sentence,
    };
    eprintln!("desk: {sentence}");
    ExitCode::from(1)
}

/// Reads a record, or says what is wrong with the file. One byte more than a record has is read, if
/// there is one, so that a hand-in sees a file that is too long.
fn read_record(path: PathBuf) -> Result<Matrix, String> {
    let mut record = Vec::new();
    let most = MATRIX_RECORD_BYTES as u64 + 1;
    File::open(&path)
        .and_then(|file| file.take(most).read_to_end(&mut record))
        .map_err(|error| format!("{}: {error}", path.display()))?;
    Ok(Matrix { path, record })
}

/// Serves the sectors that these matrices are for, and answers whether all results are right.
fn serve(matrices: &[Matrix], output: &mut impl Write) -> io::Result<bool> {
    let mut hub = Hub {
        desk: Desk::new(),
        sectors: std::array::from_fn(|_| Sector {
            matrix: Matrix::default(),
            area: [0; AREA_WORDS],
            rounds: 0,
        }),
        next: matrices.last().cloned().unwrap_or_default(),
    };
    set_shares(&mut hub, TOO_MANY, output)?;
    set_shares(&mut hub, SHARES, output)?;
    for (k, matrix) in matrices.iter().enumerate() {
        hand_in(&mut hub, k, matrix, output)?;
    }
    let fetched = serve_rounds(&mut hub, output)?;
    let right = print_results(&mut hub, output)?;
    Ok(fetched && right)
}

/// Serves rounds until all jobs are finished. The first is begun as well: the one that a new desk
/// stands at the start of has the first shares, 15 for each sector. Answers whether the result that is
/// fetched on the way is right.
fn serve_rounds(hub: &mut Hub, output: &mut impl Write) -> io::Result<bool> {
    let mut right = true;
    print_header(output)?;
    let mut round = 1;
    while !hub.desk.jobs.iter().all(|job| job.is_finished()) && hub.desk.begin(Operator).is_ok() {
        if round == EARLY_ROUND {
            let next = hub.next.clone();
            hand_in(hub, EARLY, &next, output)?;
        }
        serve_round(hub, round, output)?;
        right = fetch_early(hub, output)? && right;
        round += 1;
    }
    writeln!(output)?;
    Ok(right)
}

/// Sets the shares, which count from the next round on. If they are refused, the desk keeps those
/// that it has.
fn set_shares(hub: &mut Hub, shares: [u16; SECTORS], output: &mut impl Write) -> io::Result<()> {
    write!(
        output,
        "shares {}: ",
        shares.map(|s| s.to_string()).join(" ")
    )?;
    match hub.desk.set_shares(Operator, shares) {
        Ok(()) => writeln!(output, "set"),
        Err(refusal) => print_refusal(refusal, output),
    }
}

/// Hands in a matrix for a sector: it is loaded or waits, and the desk tells which. A refused hand-in
/// leaves the sector as it was, with what waits for it, and the others are served all the same.
fn hand_in(hub: &mut Hub, k: usize, matrix: &Matrix, output: &mut impl Write) -> io::Result<()> {
    let Hub { desk, sectors, .. } = hub;
    let sector = &mut sectors[k];
    let reply = desk.hand_in(Operator, k as u32, &matrix.record, &mut sector.area);
    write!(output, "sector {k}: {}: ", matrix.path.display())?;
    match reply {
        Err(refusal) => print_refusal(refusal, output),
        Ok(HandedIn { heard, job, .. }) if desk.waits[k] != 0 => writeln!(
            output,
            "waits, heard byte {heard:02X} and turn number {} as they stand",
            job.turn
        ),
        Ok(HandedIn { heard, .. }) => {
            sector.matrix = matrix.clone();
            writeln!(output, "loaded, heard byte {heard:02X}")
        }
    }
}

fn print_refusal(refusal: Refusal, output: &mut impl Write) -> io::Result<()> {
    let number = refusal.number();
    writeln!(output, "refused with number {number}: {refusal}")
}

fn print_header(output: &mut impl Write) -> io::Result<()> {
    let used_up = Refusal::CountUsedUp;
    writeln!(output, "\nnumber {}: {used_up}", used_up.number())?;
    writeln!(
        output,
        "turns granted to sectors 0 to 7, and what sector {GREEDY} is refused with when it requests more"
    )?;
    writeln!(
        output,
        "round    0    1    2    3    4    5    6    7  refused"
    )
}

/// Requests turns for each sector that is not finished, one after the other, and prints what is
/// granted to each. The greedy one gets its share, as the others do, and is refused when it requests
/// more: none of that is taken from those that come after it.
fn serve_round(hub: &mut Hub, round: u32, output: &mut impl Write) -> io::Result<()> {
    let mut refused = None;
    let Hub { desk, sectors, .. } = hub;
    write!(output, "{round:5}")?;
    for (k, sector) in sectors.iter_mut().enumerate() {
        if desk.jobs[k].is_finished() {
            write!(output, "  {:>3}", "-")?;
            continue;
        }
        let request = match k {
            GREEDY => ROUND_TURNS,
            _ => desk.shares[k],
        };
        let mut run = || desk.run(Operator, k as u32, request, &mut sector.area);
        let count = run().map_or(0, |progress| progress.count);
        write!(output, "  {count:3}")?;
        sector.rounds += 1;
        if k == GREEDY {
            refused = run().err();
        }
    }
    if let Some(refusal) = refused {
        write!(output, "  {:7}", refusal.number())?;
    }
    writeln!(output)
}

/// Prints what became of each sector, and what is said of sector 8, which is not there. Answers
/// whether all results are right. A sector never loaded is known by its heard byte, which is 0.
/// Fetch would not tell: its job is (120, 0), as if it were finished.
fn print_results(hub: &mut Hub, output: &mut impl Write) -> io::Result<bool> {
    let mut right = true;
    for k in 0..=SECTORS {
        write!(output, "sector {k}: ")?;
        match hub.desk.heard(Operator, k as u32) {
            Err(refusal) => print_refusal(refusal, output)?,
            Ok(0) => writeln!(output, "heard byte 00, never loaded")?,
            Ok(_) => right = print_result(hub, k, output)? && right,
        }
    }
    output.flush()?;
    Ok(right)
}

/// Prints what became of a sector that was loaded. Answers whether its result is right, and took no
/// more rounds than 120 divided by its share, rounded up. Its heard byte and job are looked at before
/// Fetch, which may bring in the next matrix.
fn print_result(hub: &mut Hub, k: usize, output: &mut impl Write) -> io::Result<bool> {
    let (heard, made, share) = (hub.desk.heard[k], hub.desk.jobs[k].made, hub.desk.shares[k]);
    let (rounds, most) = (hub.sectors[k].rounds, TURNS.div_ceil(share.into()));
    write!(output, "heard byte {heard:02X}, {made} turns made, ")?;
    write!(
        output,
        "share {share}, finished in {rounds} rounds of at most {most}, "
    )?;
    let same = fetched_as_whole(hub, Operator, k).unwrap_or(false);
    let is = if same { "is" } else { "is not" };
    writeln!(output, "the result {is} the one that Whole makes")?;
    Ok(same && rounds <= most)
}

/// Prints what a viewer gets of the sector whose next matrix waits: its heard byte, and not its result.
/// Answers whether the result is refused.
fn print_viewer(hub: &mut Hub, output: &mut impl Write) -> io::Result<bool> {
    let heard = hub.desk.heard(Viewer, EARLY as u32).unwrap_or(0);
    write!(
        output,
        "viewer of sector {EARLY}: heard byte {heard:02X}, and the result is "
    )?;
    let refusal = fetch(hub, Viewer, EARLY).err();
    match refusal {
        None => writeln!(output, "fetched")?,
        Some(refusal) => print_refusal(refusal, output)?,
    }
    Ok(refusal == Some(Refusal::NotAllowed))
}

/// Prints what a fitter gets of it: the result, as often as it likes. Answers whether it is right, and
/// the next matrix goes on waiting.
fn print_fitter(hub: &mut Hub, output: &mut impl Write) -> io::Result<bool> {
    let same = (0..2).all(|_| fetched_as_whole(hub, Fitter, EARLY).unwrap_or(false));
    let is = if same { "is" } else { "is not" };
    write!(
        output,
        "fitter of sector {EARLY}: the result, fetched twice, {is} the one that Whole makes, "
    )?;
    let waits = hub.desk.waits[EARLY] != 0;
    let goes_on = if waits { "goes on" } else { "ends" };
    writeln!(output, "and the next matrix {goes_on} waiting")?;
    Ok(same && waits)
}

/// Fetches the first result of the sector whose next matrix waits, once it is finished: for a viewer,
/// for a fitter and then for the operator, whose Fetch brings that matrix in. Answers whether all of it
/// is right.
fn fetch_early(hub: &mut Hub, output: &mut impl Write) -> io::Result<bool> {
    if hub.desk.waits[EARLY] == 0 || !hub.desk.jobs[EARLY].is_finished() {
        return Ok(true);
    }
    let viewed = print_viewer(hub, output)?;
    let fitted = print_fitter(hub, output)?;
    write!(output, "sector {EARLY}: ")?;
    let right = print_result(hub, EARLY, output)?;
    let sector = &mut hub.sectors[EARLY];
    sector.matrix = hub.next.clone();
    sector.rounds = 0;
    writeln!(
        output,
        "sector {EARLY}: {}: brought in, heard byte {:02X}",
        hub.next.path.display(),
        hub.desk.heard[EARLY]
    )?;
    Ok(viewed && fitted && right)
}

/// Fetches the result of a sector for a role.
fn fetch(hub: &mut Hub, role: Role, k: usize) -> Result<[u8; RESULT_RECORD_BYTES], Refusal> {
    let mut result = [0; RESULT_RECORD_BYTES];
    let area = &mut hub.sectors[k].area;
    hub.desk.fetch(role, k as u32, area, &mut result)?;
    Ok(result)
}

/// Whether the result that is fetched for a sector is the one that Whole makes of its record.
fn fetched_as_whole(hub: &mut Hub, role: Role, k: usize) -> Result<bool, Refusal> {
    let fetched = fetch(hub, role, k)?;
    let mut expected = [0; RESULT_RECORD_BYTES];
    let record = &hub.sectors[k].matrix.record;
    hubqr::whole(record, &mut [0; AREA_WORDS], &mut expected)?;
    Ok(fetched == expected)
}
