//! The arguments of `compare`.

use std::path::PathBuf;

use reference::fixed;

pub const USAGE: &str = "\
usage: compare REPLAY AXES [options]
  REPLAY, AXES   the product's programs of these names; - for REPLAY: AXES alone is compared
  --scripts N    compare N random scripts (2000 if not said)
  --calls N      compare random scripts until N calls were made
  --seed S       the seed of the random scripts (1 if not said)
  --first N      begin with random script N, and do not ask whether all was met
  --fixed DIR    where the fixed scripts stand
  --save FILE    write a script that differs, shrunk, to this file
  --verbose      tell how often each thing happened in the random scripts";

/// How much is compared.
#[derive(Clone, Copy, PartialEq, Eq, Debug)]
pub enum Extent {
    Scripts(u64),
    Calls(u64),
}

#[derive(Clone, PartialEq, Eq, Debug)]
pub struct Options {
    /// None: `axes` alone is compared.
    pub replay: Option<PathBuf>,
    pub axes: PathBuf,
    pub extent: Extent,
    pub seed: u64,
    /// The number of the first random script, if it was named.
    pub first: Option<u64>,
    pub fixed: PathBuf,
    pub save: Option<PathBuf>,
    pub verbose: bool,
}

impl Options {
    pub fn parse(mut arguments: impl Iterator<Item = String>) -> Result<Options, String> {
        let mut paths = Vec::new();
        let mut options = Options {
            replay: None,
            axes: PathBuf::new(),
            extent: Extent::Scripts(2000),
            seed: 1,
            first: None,
            fixed: fixed::directory(),
            save: None,
            verbose: false,
        };
        while let Some(argument) = arguments.next() {
            let mut value = || {
                arguments
                    .next()
                    .ok_or_else(|| format!("a value is missing after {argument}"))
            };
            match argument.as_str() {
                "--scripts" => options.extent = Extent::Scripts(number(&value()?)?),
                "--calls" => options.extent = Extent::Calls(number(&value()?)?),
                "--seed" => options.seed = number(&value()?)?,
                "--first" => options.first = Some(number(&value()?)?),
                "--fixed" => options.fixed = value()?.into(),
                "--save" => options.save = Some(value()?.into()),
                "--verbose" => options.verbose = true,
                option if option.starts_with("--") => {
                    return Err(format!("there is no option {option}"));
                }
                path => paths.push(PathBuf::from(path)),
            }
        }
        let [replay, axes] = <[PathBuf; 2]>::try_from(paths)
            .map_err(|paths| format!("two programs are wanted, {} are named", paths.len()))?;
        Ok(Options {
            replay: (replay.as_os_str() != "-").then_some(replay),
            axes,
            ..options
        })
    }
}

fn number(word: &str) -> Result<u64, String> {
    word.parse()
        .map_err(|_| format!("{word} is not a whole number from 0 on"))
}

#[cfg(test)]
mod tests {
    use super::*;

    fn parse(line: &str) -> Result<Options, String> {
        Options::parse(line.split_whitespace().map(String::from))
    }

    #[test]
    fn what_is_named_and_what_is_not() {
        let options = parse("a --calls 5 b --seed 9").expect("right arguments");
        assert_eq!(options.replay, Some(PathBuf::from("a")));
        assert_eq!(options.axes, PathBuf::from("b"));
        assert_eq!((options.extent, options.seed), (Extent::Calls(5), 9));
        assert_eq!(parse("a b").map(|o| o.extent), Ok(Extent::Scripts(2000)));
        assert_eq!(parse("- b").map(|o| o.replay), Ok(None));
    }

    #[test]
    fn faults_are_told() {
        for line in ["a", "a b c", "a b --seed", "a b --seed x", "a b --wrong"] {
            assert!(parse(line).is_err(), "{line}");
        }
    }
}
