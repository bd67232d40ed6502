//! The commands and their flags, taken from the lines of use that `--help` prints: the parsing of the command line, the shell completion and the manual
//! page all go by them.

use crate::help::GENERAL;

/// One line of use.
#[derive(Debug, Default, PartialEq, Eq)]
pub struct Use {
    pub command: &'static str,
    /// The word behind the command that is a part of it: `new` of `icl book new`.
    pub part: Option<&'static str>,
    /// Flags that take no value.
    pub flags: Vec<&'static str>,
    /// Flags with what stands for their value: `N`, `DIR`, `letter|bundle|item`.
    pub options: Vec<(&'static str, &'static str)>,
}

/// Every line of use; one that is broken goes on, set in further, on the next line.
pub fn all() -> Vec<Use> {
    let lines = GENERAL.lines().skip_while(|line| *line != "use:").skip(1).take_while(|line| !line.is_empty());
    let mut uses: Vec<Vec<&'static str>> = Vec::new();
    for line in lines {
        let words = line.split_whitespace();
        match (line.strip_prefix("  icl "), uses.last_mut()) {
            (None, Some(last)) => last.extend(words),
            _ => uses.push(words.skip(1).collect()),
        }
    }
    uses.iter().map(|words| one(words)).filter(|use_of| is_word(use_of.command)).collect()
}

/// The flags and the options of a command, of all its lines.
pub fn of(command: &str) -> (Vec<&'static str>, Vec<&'static str>) {
    let (mut flags, mut options) = (Vec::new(), Vec::new());
    for use_of in all().into_iter().filter(|use_of| use_of.command == command) {
        flags.extend(use_of.flags);
        options.extend(use_of.options.into_iter().map(|(option, _)| option));
    }
    (flags, options)
}

fn is_word(word: &str) -> bool {
    !word.is_empty() && word.bytes().all(|byte| byte.is_ascii_lowercase())
}

fn one(words: &[&'static str]) -> Use {
    let mut words = words.iter().copied().peekable();
    let mut found = Use { command: words.next().unwrap_or_default(), ..Use::default() };
    found.part = words.next_if(|word| is_word(word));
    while let Some(word) = words.next() {
        let flag = word.trim_matches(['[', ']']);
        if !flag.starts_with('-') {
            continue;
        }
        // In brackets by itself a flag has no value, and names of which several may stand are none.
        let value =
            words.next_if(|next| !word.ends_with(']') && !next.starts_with(['-', '[', '|']) && !next.ends_with("..."));
        match value {
            Some(value) => found.options.push((flag, value.trim_matches(']'))),
            None => found.flags.push(flag),
        }
    }
    found
}

#[cfg(test)]
mod tests {
    use super::*;

    fn line(text: &'static str) -> Use {
        one(&text.split_whitespace().collect::<Vec<_>>())
    }

    #[test]
    fn lines_taken_apart() {
        let tree = line("tree [--depth letter|bundle|item] [--walk] [--csv | --json] FILE...");
        assert_eq!((tree.command, tree.part), ("tree", None));
        assert_eq!(
            (tree.flags, tree.options),
            (vec!["--walk", "--csv", "--json"], vec![("--depth", "letter|bundle|item")])
        );
        let tags = line("tags --tiff IMAGE...");
        assert_eq!((tags.flags, tags.options), (vec!["--tiff"], vec![]));
        let new = line("book new BOOK [--rows N]");
        assert_eq!((new.part, new.options), (Some("new"), vec![("--rows", "N")]));
    }

    #[test]
    fn every_command_is_there() {
        let (flags, options) = of("find");
        assert_eq!(flags, ["--csv", "--json", "--force"]);
        assert_eq!(options, ["--sequence", "--amount", "--routing", "--account", "--pictures"]);
        assert_eq!(of("picture"), (vec!["--force"], vec!["-o"]));
        let commands: Vec<&str> = all().iter().map(|use_of| use_of.command).collect();
        assert!(["check", "rows", "tree", "tags", "write", "salvage", "book", "show"]
            .iter()
            .all(|name| commands.contains(name)));
    }

    /// What stands in the lines of use of the general help stands in the command's own, and the other way round.
    #[test]
    fn the_commands_own_lines_are_the_same() {
        for use_of in all() {
            let text = crate::help::of(use_of.command).unwrap();
            let head = text.split("\n\n").next().unwrap();
            let own: Vec<&str> = head.split_whitespace().map(|word| word.trim_matches(['[', ']'])).collect();
            let flags = use_of.flags.iter().chain(use_of.options.iter().map(|(option, _)| option));
            flags.for_each(|flag| assert!(own.contains(flag), "{flag} is not in the help of {}", use_of.command));
            let known = all().into_iter().filter(|other| other.command == use_of.command);
            let known: Vec<&str> = known
                .flat_map(|other| other.flags.into_iter().chain(other.options.into_iter().map(|(option, _)| option)))
                .collect();
            own.iter().filter(|word| word.starts_with('-')).for_each(|flag| {
                assert!(known.contains(flag), "{flag} of {} is not in the general help", use_of.command);
            });
        }
    }
}
