//! The command line.
use std::ffi::{OsStr, OsString};

use crate::failure::Failure;
use crate::help;

/// What is asked for. A file name `-` stands for standard input or standard output.
#[derive(Debug, PartialEq)]
pub enum Command {
    Help(&'static str),
    Version,
    Pack { text: OsString, record: OsString },
    Show { file: OsString },
    Check { matrix: OsString, result: OsString },
    Verify { matrix: OsString, result: OsString },
    Weights { result: OsString, targets: OsString },
    Log { file: OsString },
}

impl Command {
    /// The command that the arguments behind the program's name ask for.
    pub fn parse(mut arguments: impl Iterator<Item = OsString>) -> Result<Command, Failure> {
        let name = arguments
            .next()
            .ok_or_else(|| Failure::Usage("no command given".into()))?;
        let rest = Arguments::sort(arguments);
        let wants_help = rest.options.iter().any(|option| is_help(option));
        match name.to_str() {
            _ if is_help(&name) => Ok(Command::Help(help::ALL)),
            Some("--version") => Ok(Command::Version),
            Some("pack") if wants_help => Ok(Command::Help(help::PACK)),
            Some("show") if wants_help => Ok(Command::Help(help::SHOW)),
            Some("check") if wants_help => Ok(Command::Help(help::CHECK)),
            Some("verify") if wants_help => Ok(Command::Help(help::VERIFY)),
            Some("weights") if wants_help => Ok(Command::Help(help::WEIGHTS)),
            Some("log") if wants_help => Ok(Command::Help(help::LOG)),
            Some("pack") => rest
                .files("pack IN.txt OUT.bin")
                .map(|[text, record]| Command::Pack { text, record }),
            Some("show") => rest.files("show FILE").map(|[file]| Command::Show { file }),
            Some("check") => rest
                .files("check MATRIX RESULT")
                .map(|[matrix, result]| Command::Check { matrix, result }),
            Some("verify") => rest
                .files("verify MATRIX RESULT")
                .map(|[matrix, result]| Command::Verify { matrix, result }),
            Some("weights") => rest
                .files("weights RESULT TARGETS")
                .map(|[result, targets]| Command::Weights { result, targets }),
            Some("log") => rest.files("log FILE").map(|[file]| Command::Log { file }),
            _ => Err(Failure::Usage(format!("unknown command {}", quoted(&name)))),
        }
    }

    /// The exit status of this command where it could not be done. That of verify differs from its no.
    pub fn undone(&self) -> u8 {
        match self {
            Command::Verify { .. } => 2,
            _ => 1,
        }
    }
}

fn is_help(argument: &OsStr) -> bool {
    argument == "--help" || argument == "-h"
}

fn quoted(argument: &OsStr) -> String {
    format!("'{}'", argument.to_string_lossy())
}

/// What stands behind a command. Behind `--` everything is a file name, also what begins with '-'.
struct Arguments {
    options: Vec<OsString>,
    files: Vec<OsString>,
}

impl Arguments {
    fn sort(mut given: impl Iterator<Item = OsString>) -> Arguments {
        let before: Vec<OsString> = given.by_ref().take_while(|one| one != "--").collect();
        let (options, mut files): (Vec<_>, Vec<_>) = before.into_iter().partition(|argument| {
            let bytes = argument.as_encoded_bytes();
            bytes.len() > 1 && bytes[0] == b'-'
        });
        files.extend(given);
        Arguments { options, files }
    }

    /// The N file names that a command takes, and no option.
    fn files<const N: usize>(self, usage: &str) -> Result<[OsString; N], Failure> {
        if let Some(option) = self.options.first() {
            let message = format!("unknown option {}; usage: record {usage}", quoted(option));
            return Err(Failure::Usage(message));
        }
        let given = self.files.len();
        self.files.try_into().map_err(|_| {
            let names = if N == 1 { "file name" } else { "file names" };
            Failure::Usage(format!(
                "{N} {names} needed, {given} given; usage: record {usage}"
            ))
        })
    }
}

#[cfg(test)]
mod tests {
    use super::*;

    fn parse(arguments: &[&str]) -> Result<Command, Failure> {
        Command::parse(arguments.iter().map(OsString::from))
    }

    #[test]
    fn commands_take_their_files() {
        let show = Command::Show { file: "-".into() };
        assert_eq!(parse(&["show", "-"]).unwrap(), show);
        let check = Command::Check {
            matrix: "m".into(),
            result: "r".into(),
        };
        assert_eq!(parse(&["check", "m", "r"]).unwrap(), check);
        let verify = Command::Verify {
            matrix: "-".into(),
            result: "r".into(),
        };
        assert_eq!(parse(&["verify", "-", "r"]).unwrap(), verify);
        let weights = Command::Weights {
            result: "r".into(),
            targets: "-".into(),
        };
        assert_eq!(parse(&["weights", "r", "-"]).unwrap(), weights);
        let log = Command::Log { file: "l".into() };
        assert_eq!(parse(&["log", "l"]).unwrap(), log);
    }

    #[test]
    fn names_behind_two_dashes_may_begin_with_one() {
        let show = |file: &str| Command::Show { file: file.into() };
        assert_eq!(parse(&["show", "--", "-h"]).unwrap(), show("-h"));
        assert_eq!(parse(&["show", "--", "--"]).unwrap(), show("--"));
        assert_eq!(parse(&["show", "a", "--"]).unwrap(), show("a"));
        let check = Command::Check {
            matrix: "a".into(),
            result: "-b".into(),
        };
        assert_eq!(parse(&["check", "a", "--", "-b"]).unwrap(), check);
        assert!(parse(&["show", "-x", "--", "a"]).is_err());
    }

    #[test]
    fn the_version_is_asked_for_in_place_of_a_command() {
        assert_eq!(parse(&["--version"]).unwrap(), Command::Version);
        assert!(parse(&["show", "--version"]).is_err());
    }

    #[test]
    fn help_goes_before_other_faults() {
        assert_eq!(parse(&["--help"]).unwrap(), Command::Help(help::ALL));
        let pack_help = Command::Help(help::PACK);
        assert_eq!(parse(&["pack", "a", "b", "c", "-h"]).unwrap(), pack_help);
    }

    #[test]
    fn anything_else_is_a_usage_failure() {
        for arguments in [
            &[][..],
            &["list"],
            &["show"],
            &["show", "a", "b"],
            &["show", "-v"],
            &["pack", "a"],
            &["check", "a", "--fast"],
            &["verify", "a"],
            &["weights", "a"],
            &["log"],
            &["log", "a", "b"],
        ] {
            let failure = parse(arguments).unwrap_err();
            assert!(matches!(failure, Failure::Usage(_)), "{arguments:?}");
        }
    }
}
