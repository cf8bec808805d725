//! What a program that makes inputs by chance is asked for on its command line.

/// The program's name, its option for how many inputs, what these are, and how many unless it is told.
pub struct Usage {
    pub program: &'static str,
    pub option: &'static str,
    pub inputs: &'static str,
    pub count: u64,
}

pub struct Options {
    pub count: u64,
    pub seed: u64,
    pub first: bool,
}

impl Usage {
    /// Those of this process; with a bad one it ends with 2.
    pub fn options(&self) -> Options {
        self.read(std::env::args().skip(1)).unwrap_or_else(|message| {
            eprintln!("{message}\n{}", self.help());
            std::process::exit(2)
        })
    }

    fn read(&self, mut words: impl Iterator<Item = String>) -> Result<Options, String> {
        let mut options = Options { count: self.count, seed: 1, first: false };
        while let Some(word) = words.next() {
            let mut number = || {
                let text = words.next().ok_or_else(|| format!("{word} needs a value"))?;
                text.parse().map_err(|_| format!("{text} is no number"))
            };
            match word.as_str() {
                "--seed" => options.seed = number()?,
                "--first" => options.first = true,
                _ if word == self.option => options.count = number()?,
                _ => return Err("options:".to_string()),
            }
        }
        Ok(options)
    }

    fn help(&self) -> String {
        let Usage { program, option, inputs, count } = self;
        format!(
            "{program} [{option} N] [--seed S] [--first]
  {option} N    {inputs} by chance ({count})
  --seed S     their seed (1)
  --first      stop at the first difference"
        )
    }
}
