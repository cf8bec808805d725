//! What is asked for on the command line.
use std::path::PathBuf;

const SETS: [&str; 6] = ["rows", "trees", "calls", "chart", "random", "limits"];

pub const HELP: &str = "\
compare [--only SET] [--random N] [--limits N] [--seed S] [--first]
        [--crates DIR] [--vectors]
  --only SET    one of rows, trees, calls, chart, random, limits
  --random N    small programs by chance (1000000)
  --limits N    programs at the limits by chance (4000)
  --seed S      the seed of both (1)
  --first       stop at the first difference
  --crates DIR  the folder of the crates whose chart it is (../crates)
  --vectors     write the fixed list of the oracle's answers to standard output, and compare nothing";

pub struct Options {
    pub only: Option<String>,
    pub random: u64,
    pub limits: u64,
    pub seed: u64,
    pub first: bool,
    pub crates: PathBuf,
    pub vectors: bool,
}

impl Default for Options {
    fn default() -> Self {
        let crates = "../crates".into();
        Options { only: None, random: 1_000_000, limits: 4_000, seed: 1, first: false, crates, vectors: false }
    }
}

impl Options {
    pub fn read(mut words: impl Iterator<Item = String>) -> Result<Options, String> {
        let mut options = Options::default();
        while let Some(word) = words.next() {
            let mut value = || words.next().ok_or_else(|| format!("{word} needs a value\n{HELP}"));
            match word.as_str() {
                "--only" => options.only = Some(set(value()?)?),
                "--random" => options.random = number(&value()?)?,
                "--limits" => options.limits = number(&value()?)?,
                "--seed" => options.seed = number(&value()?)?,
                "--first" => options.first = true,
                "--crates" => options.crates = value()?.into(),
                "--vectors" => options.vectors = true,
                _ => return Err(HELP.to_string()),
            }
        }
        Ok(options)
    }
}

fn set(name: String) -> Result<String, String> {
    Some(name).filter(|name| SETS.contains(&name.as_str())).ok_or_else(|| HELP.to_string())
}

fn number(text: &str) -> Result<u64, String> {
    text.parse().map_err(|_| format!("{text} is no number\n{HELP}"))
}
