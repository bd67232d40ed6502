//! The words of a command line, parted into names, flags and options.

use std::ffi::{OsStr, OsString};

use crate::forms::Form;
use crate::stop::Stop;
use crate::words;

pub struct Args {
    names: Vec<OsString>,
    flags: Vec<&'static str>,
    options: Vec<(&'static str, OsString)>,
}

impl Args {
    /// Parts the words by the flags and the options with a value that the command knows. After `--` all are names.
    pub fn of(words: Vec<OsString>, flags: &[&'static str], options: &[&'static str]) -> Result<Args, Stop> {
        let mut args = Args { names: Vec::new(), flags: Vec::new(), options: Vec::new() };
        let mut words = words.into_iter();
        while let Some(word) = words.next() {
            if word == "--" {
                args.names.extend(words.by_ref());
            } else if let Some(flag) = flags.iter().find(|flag| word == **flag) {
                args.flags.push(flag);
            } else if let Some(option) = options.iter().find(|option| word == **option) {
                let value = words.next().ok_or_else(|| Stop::Usage(format!("{option} needs a value")))?;
                if args.option(option).is_some() {
                    return Err(Stop::Usage(format!("{option} was given twice")));
                }
                args.options.push((option, value));
            } else if word != "-" && word.as_encoded_bytes().starts_with(b"-") {
                return Err(Stop::Usage(format!("{} is not known here", words::name(&word))));
            } else {
                args.names.push(word);
            }
        }
        if args.names.iter().filter(|name| *name == "-").count() > 1 {
            return Err(Stop::Usage("standard input (-) can be read once only".to_string()));
        }
        Ok(args)
    }

    pub fn has(&self, flag: &str) -> bool {
        self.flags.contains(&flag)
    }

    pub fn option(&self, name: &str) -> Option<&OsStr> {
        self.options.iter().find(|option| option.0 == name).map(|option| option.1.as_os_str())
    }

    /// How a listing is to be written.
    pub fn form(&self) -> Result<Form, Stop> {
        match (self.has("--csv"), self.has("--json")) {
            (true, true) => Err(Stop::Usage("--csv and --json exclude each other".to_string())),
            (true, _) => Ok(Form::Csv),
            (_, true) => Ok(Form::Json),
            _ => Ok(Form::Text),
        }
    }

    /// One name or more.
    pub fn several(&self) -> Result<&[OsString], Stop> {
        match self.names.is_empty() {
            true => Err(Stop::Usage("no file was named".to_string())),
            false => Ok(&self.names),
        }
    }

    /// One name or more, and behind them one other.
    pub fn several_and(&self, what: [&str; 2]) -> Result<(&[OsString], &OsStr), Stop> {
        match self.names.split_last() {
            Some((last, several)) if !several.is_empty() => Ok((several, last)),
            _ => Err(Stop::Usage(format!("{} is missing", what[self.names.len()]))),
        }
    }

    /// As many names as there are things to be named.
    pub fn exactly<const COUNT: usize>(&self, what: [&str; COUNT]) -> Result<&[OsString; COUNT], Stop> {
        self.names.as_slice().try_into().map_err(|_| match what.get(self.names.len()) {
            Some(missing) => Stop::Usage(format!("{missing} is missing")),
            None => {
                let word = self.names.get(COUNT).map_or_else(String::new, |name| words::name(name));
                let asked = match what.split_last() {
                    None => "none is asked".to_string(),
                    Some((last, [])) => format!("{last} alone is asked"),
                    Some((last, others)) => format!("{} and {last} are asked", others.join(", ")),
                };
                Stop::Usage(format!("{word} is a word too many: {asked}"))
            }
        })
    }
}

/// The decimal number of 64 bits in a word, which is named by what it should be.
pub fn number(word: &OsStr, what: &str) -> Result<u64, Stop> {
    let digits = word.to_str().filter(|text| !text.is_empty() && text.bytes().all(|byte| byte.is_ascii_digit()));
    match digits.map(str::parse) {
        Some(Ok(number)) => Ok(number),
        Some(Err(_)) => {
            let (word, most) = (words::name(word), u64::MAX);
            Err(Stop::Usage(format!("{word} is too large for a number: {what} is at most {most}")))
        }
        None => {
            let word = if word.is_empty() { "an empty word".to_string() } else { words::name(word) };
            Err(Stop::Usage(format!("{word} is no {what}: a decimal number is needed")))
        }
    }
}
