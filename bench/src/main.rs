//! The benchmark: the engine beside the reference, versions in C, LAPACK and Eigen. Nothing here
//! tests a time.

mod agree;
mod clock;
mod contenders;
mod costs;
mod covariance;
mod desk;
mod doubles;
#[cfg(earlier)]
mod earlier;
mod inputs;
mod log;
mod measure;
mod norms;
mod options;
mod report;
mod results;
mod rounds;
mod stats;
mod table;
mod timed;
mod times;
mod verify;
mod versions;
mod weights;

use std::env;
use std::fs;
use std::process::ExitCode;

use options::{Options, USAGE};
use rounds::Results;
use table::Table;

fn main() -> ExitCode {
    // No option has characters that are lost here: such an argument is refused as no option.
    let arguments = env::args_os().map(|argument| argument.to_string_lossy().into_owned());
    let options = match Options::parse(arguments.skip(1)) {
        Ok(options) => options,
        Err(message) => {
            eprintln!("bench: {message}\n\n{USAGE}");
            return ExitCode::from(2);
        }
    };
    if options.help {
        print!("{USAGE}");
        return ExitCode::SUCCESS;
    }
    if let Err(message) = agree(options.seed) {
        eprintln!("bench: {message}");
        return ExitCode::FAILURE;
    }
    let (rounds, seed) = (options.rounds, options.seed);
    print(&options, &rounds::measured(rounds, seed));
    print_covariance(&options, &covariance::rounds::measured(rounds, seed));
    print_weights(&options, &weights::rounds::measured(rounds, seed));
    print_verify(&options, &verify::rounds::measured(rounds, seed));
    print_desk(&options, &desk::rounds::measured(rounds, seed));
    print_log(&options, &log::rounds::measured(rounds, seed));
    ExitCode::SUCCESS
}

/// Nobody is timed who does not do the work.
fn agree(seed: u64) -> Result<(), String> {
    #[cfg(earlier)]
    earlier::check_face()?;
    for contender in contenders::all() {
        agree::check(&contender, seed)?;
    }
    for comparator in doubles::all() {
        agree::check_double(&comparator, seed)?;
    }
    for contender in covariance::contenders::all() {
        contender.check(seed)?;
    }
    for contender in weights::contenders::all() {
        contender.check(seed)?;
    }
    for contender in verify::contenders::all() {
        contender.check(seed)?;
    }
    for contender in desk::contenders::desks() {
        contender.check(seed)?;
    }
    for contender in log::contenders::all() {
        contender.check(seed)?;
    }
    Ok(())
}

fn print(options: &Options, results: &Results) {
    println!("{}\n", machine(results));
    println!(
        "{} rounds, seed {}. Times are medians. Ratios are to C plain, gcc: medians of the ratios \
         in each round.\n",
        options.rounds, options.seed
    );
    for line in contenders::missing() {
        println!("{line}\n");
    }
    let section = |title, table| section(options, title, table);
    section("All contenders", report::everyone(results));
    println!("{}\n", fallback(options.seed));
    section(
        "The engine beside each",
        report::engine_over_others(results),
    );
    section("Nine of ten rounds", report::spreads(results));
    section("Run from turn number 0", report::growth(results));
    section("Calls and Whole", report::shares(results));
    println!("{}\n", emptier(options.seed));
}

fn print_covariance(options: &Options, results: &covariance::rounds::Results) {
    let everyone = covariance::report::everyone(results);
    section(options, "Adding snapshots", everyone);
    println!("{}\n", covariance::report::words(results));
}

fn print_weights(options: &Options, results: &weights::rounds::Results) {
    section(options, "Weights", weights::report::everyone(results));
    let spreads = weights::report::spreads(results);
    section(options, "Nine of ten rounds of weights", spreads);
    println!("{}\n", weights::report::words(results));
}

fn print_verify(options: &Options, results: &verify::rounds::Results) {
    section(options, "Verify", verify::report::everyone(results));
    let spreads = verify::report::spreads(results);
    section(options, "Nine of ten rounds of Verify", spreads);
    println!("{}\n", verify::report::words(results));
}

fn print_desk(options: &Options, results: &desk::rounds::Results) {
    let everyone = desk::report::everyone(results);
    section(options, "A desk for eight sectors", everyone);
    println!("{}\n", desk::report::words(results));
}

fn print_log(options: &Options, results: &log::rounds::Results) {
    section(options, "Adding to a log", log::report::adding(results));
    section(options, "Sweeping a log", log::report::sweeping(results));
    section(options, "Reading a log", log::report::reading(results));
    println!("{}", log::report::words(results));
}

fn section(options: &Options, title: &str, table: Table) {
    match options.markdown {
        true => println!("### {title}\n\n{}", table.markdown()),
        false => println!("{title}\n\n{}", table.plain()),
    }
}

/// What the words of the fallback are like.
fn fallback(seed: u64) -> String {
    let (loaded, arbitrary) = norms::rotations_outside(seed);
    format!(
        "Fallback is Run with allowance 120 on arbitrary words: {arbitrary:.1} of the 120 \
         rotations have a column with u^2 + v^2 above 2^60 + 2^44. On loaded matrices {loaded:.1} \
         have one."
    )
}

/// What the emptier matrices are like, and what they cost.
fn emptier(seed: u64) -> String {
    let [full, half_empty, diagonal] = costs::rotations_made(seed);
    format!(
        "Half-empty has nothing in the columns of antennas 4 to 7, diagonal has (32767, 0) on the \
         diagonal and nothing elsewhere. Of the 120 rotations, {full:.1} are made of a full matrix, \
         {half_empty:.1} of a half-empty one and {diagonal:.1} of the diagonal."
    )
}

/// The processor's model, where the system tells it, and its clock.
fn machine(results: &Results) -> String {
    let information = fs::read_to_string("/proc/cpuinfo").unwrap_or_default();
    let mut models = information
        .lines()
        .filter(|line| line.starts_with("model name"));
    let model = models.next().and_then(|line| line.split_once(": "));
    let model = model.map_or("unknown", |(_, model)| model);
    match results.cycles_per_nanosecond() {
        Some(clock) => format!("Processor: {model}, core clock about {clock:.2} GHz"),
        None => format!("Processor: {model}"),
    }
}
