//! The arguments of a command: words, and options of the form `--name value`.

use std::fmt::Display;
use std::str::FromStr;

/// What a command gives back when it does not end well.
pub type Failure = Box<dyn std::error::Error>;

pub struct Arguments {
    words: Vec<String>,
    options: Vec<(String, String)>,
}

impl Arguments {
    /// Sorts the arguments into words and options; every option has a value.
    pub fn new(arguments: impl Iterator<Item = String>) -> Result<Arguments, Failure> {
        let (mut words, mut options) = (Vec::new(), Vec::new());
        let mut arguments = arguments;
        while let Some(argument) = arguments.next() {
            match argument.strip_prefix("--") {
                Some(name) => {
                    let value = arguments.next();
                    let value = value.ok_or_else(|| format!("--{name} has no value"))?;
                    options.push((name.to_string(), value));
                }
                None => words.push(argument),
            }
        }
        Ok(Arguments { words, options })
    }

    /// Takes an option's value, or the one that stands for it where it is not given.
    pub fn option<T>(&mut self, name: &str, otherwise: T) -> Result<T, Failure>
    where
        T: FromStr,
        T::Err: Display,
    {
        let Some(at) = self.options.iter().position(|(given, _)| given == name) else {
            return Ok(otherwise);
        };
        let (_, value) = self.options.remove(at);
        let parsed = value.parse();
        parsed.map_err(|why| format!("--{name} {value}: {why}").into())
    }

    /// Takes the next word.
    pub fn word(&mut self, what: &str) -> Result<String, Failure> {
        if self.words.is_empty() {
            return Err(format!("{what} is missing").into());
        }
        Ok(self.words.remove(0))
    }

    /// Nothing may be left when a command has taken its arguments.
    pub fn end(self) -> Result<(), Failure> {
        let words = self.words.into_iter();
        let options = self
            .options
            .into_iter()
            .map(|(name, _)| format!("--{name}"));
        match words.chain(options).next() {
            Some(argument) => Err(format!("{argument} is not an argument of this command").into()),
            None => Ok(()),
        }
    }
}

#[cfg(test)]
mod tests {
    use super::*;

    fn arguments(text: &str) -> Result<Arguments, Failure> {
        Arguments::new(text.split_whitespace().map(String::from))
    }

    #[test]
    fn words_and_options_come_in_any_order() {
        let mut given = arguments("--seed 7 file --count 3").unwrap();
        assert_eq!(given.option("count", 1).unwrap(), 3);
        assert_eq!(given.option("seed", 1u64).unwrap(), 7);
        assert_eq!(given.option("rounds", 5).unwrap(), 5);
        assert_eq!(given.word("a file").unwrap(), "file");
        assert!(given.word("a file").is_err());
        assert!(given.end().is_ok());
    }

    #[test]
    fn what_cannot_be_taken_is_an_error() {
        assert!(arguments("--seed").is_err());
        assert!(arguments("--seed x").unwrap().option("seed", 1u64).is_err());
        assert!(arguments("--sed 1").unwrap().end().is_err());
        assert!(arguments("more").unwrap().end().is_err());
    }
}
