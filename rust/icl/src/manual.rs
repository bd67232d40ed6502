//! `icl manual`: the manual page, in the form that `man` takes. Made from the texts that `--help` prints.

use crate::args::Args;
use crate::help::{self, GENERAL};
use crate::screen::print;
use crate::stop::{Stop, DONE};
use crate::usage;

pub fn run(args: Args) -> Result<u8, Stop> {
    args.exactly([])?;
    print(&page())?;
    Ok(DONE)
}

fn page() -> String {
    let (head, rest) = GENERAL.split_once("\n\nuse:\n").unwrap_or((GENERAL, ""));
    let (synopsis, about) = rest.split_once("\n\n").unwrap_or((rest, ""));
    let name = head.strip_prefix("icl: ").unwrap_or(head).replace('\n', " ");
    let version = env!("CARGO_PKG_VERSION");
    let mut page =
        format!(".TH ICL 1 \"\" \"icl {version}\" \"User Commands\"\n.SH NAME\nicl \\- {}\n", escaped(&name));
    page.push_str(&format!(".SH SYNOPSIS\n{}", literal(synopsis.lines())));
    page.push_str(&format!(".SH DESCRIPTION\n{}", text(about)));
    page.push_str(".SH COMMANDS\n");
    let mut commands: Vec<&str> = usage::all().iter().map(|use_of| use_of.command).collect();
    commands.dedup();
    for command in commands {
        let (head, body) = help::of(command).unwrap_or_default().split_once("\n\n").unwrap_or_default();
        page.push_str(&format!(".SS icl {command}\n{}.PP\n{}", literal(head.lines()), text(body)));
    }
    page
}

/// Lines as they stand.
fn literal<'t>(lines: impl Iterator<Item = &'t str>) -> String {
    let lines: String = lines.map(|line| format!("{}\n", escaped(line))).collect();
    format!(".nf\n{lines}.fi\n")
}

/// A text: what is set in by two blanks and begins with a dash is a flag with its words, what is set in otherwise stands as it is, and the rest is filled.
fn text(text: &str) -> String {
    let mut page = String::new();
    let mut lines = text.lines().peekable();
    while let Some(line) = lines.next() {
        let is_set_in = |line: &&str| line.starts_with("  ");
        if line.is_empty() {
            page.push_str(".PP\n");
        } else if line.trim_start().starts_with('-') && is_set_in(&line) {
            let (flag, words) = line.trim_start().split_once("  ").unwrap_or((line.trim_start(), ""));
            page.push_str(&format!(".TP\n.B {}\n{}\n", escaped(flag), escaped(words.trim_start())));
            while let Some(more) = lines.next_if(|line| line.starts_with("          ")) {
                page.push_str(&format!("{}\n", escaped(more.trim_start())));
            }
            if !lines.peek().is_some_and(is_set_in) {
                page.push_str(".PP\n");
            }
        } else if is_set_in(&line) {
            let mut block = vec![line];
            while let Some(more) = lines.next_if(|line| is_set_in(line) && !line.trim_start().starts_with('-')) {
                block.push(more);
            }
            page.push_str(&format!("{}.PP\n", literal(block.into_iter())));
        } else {
            let start = if line.starts_with("Exit status:") { ".PP\n" } else { "" };
            page.push_str(&format!("{start}{}\n", escaped(line)));
        }
    }
    page
}

/// So that nothing in it is taken for an instruction.
fn escaped(line: &str) -> String {
    let line = line.replace('\\', "\\e").replace('-', "\\-");
    match line.starts_with(['.', '\'']) {
        true => format!("\\&{line}"),
        false => line,
    }
}
