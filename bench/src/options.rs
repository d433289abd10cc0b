//! What the command line asks for.

pub const USAGE: &str = "\
usage: bench [--rounds N] [--seed N] [--markdown]

Times the engine beside the reference, versions in C, LAPACK and Eigen.
  --rounds N   rounds of all measurements, 400 if not given
  --seed N     seed of the random matrices, snapshots and targets, 1 if not given
  --markdown   print the tables as docs/BENCHMARKS.md has them
";

#[derive(Debug, PartialEq, Eq)]
pub struct Options {
    pub rounds: u64,
    pub seed: u64,
    pub markdown: bool,
    pub help: bool,
}

impl Options {
    pub fn parse(mut arguments: impl Iterator<Item = String>) -> Result<Options, String> {
        let mut options = Options {
            rounds: 400,
            seed: 1,
            markdown: false,
            help: false,
        };
        while let Some(argument) = arguments.next() {
            match argument.as_str() {
                "--rounds" => options.rounds = number(&argument, arguments.next())?,
                "--seed" => options.seed = number(&argument, arguments.next())?,
                "--markdown" => options.markdown = true,
                "--help" | "-h" => options.help = true,
                _ => return Err(format!("{argument} is no option")),
            }
        }
        match options.rounds {
            0 => Err("--rounds needs at least 1".to_string()),
            _ => Ok(options),
        }
    }
}

fn number(option: &str, value: Option<String>) -> Result<u64, String> {
    let value = value.ok_or(format!("{option} needs a number"))?;
    let parsed = value.parse();
    parsed.map_err(|_| format!("{option} needs a number, not {value}"))
}

#[cfg(test)]
mod tests {
    use super::*;

    fn parse(text: &str) -> Result<Options, String> {
        Options::parse(text.split_whitespace().map(String::from))
    }

    #[test]
    fn options_may_be_left_out() {
        let options = parse("").unwrap();
        assert_eq!((options.rounds, options.seed), (400, 1));
        let options = parse("--seed 9 --markdown --rounds 3").unwrap();
        assert_eq!((options.rounds, options.seed), (3, 9));
        assert!(options.markdown && !options.help);
    }

    #[test]
    fn what_is_wrong_is_said() {
        assert_eq!(parse("--rounds").unwrap_err(), "--rounds needs a number");
        assert_eq!(
            parse("--rounds 0").unwrap_err(),
            "--rounds needs at least 1"
        );
        assert_eq!(
            parse("--seed x").unwrap_err(),
            "--seed needs a number, not x"
        );
        assert_eq!(parse("--fast").unwrap_err(), "--fast is no option");
    }
}
