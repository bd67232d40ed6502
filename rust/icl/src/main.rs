//! icl: checks X9.100-180 image cash letters, lists what they hold, takes out their pictures and looks into them, makes the letters out, salvages torn
//! ones, and keeps a day book of them.

// Imports go one way. This root imports the modules, and no module imports the root; among themselves each imports only those on lines
// below its own. `x9180/tests/imports.rs` fails where that is not so.
//
//     check, rows, tree, pictures, tags, draft, write, salvage, book, find, show, follow, summary, diff, completion, manual    the commands
//     follow_words
//     book_convert, find_query, meaning, walked, tree_rows, salvage_told, salvage_list
//     book_words, each, taking
//     answer, args, input, output, sheet, names, usage, book_file, book_list, durable, facts, codes, verdicts, walk, fields, diff_match, diff_records, salvage_sums
//     store, forms, places, files, help
//     screen, interrupt, json, keys
//     stop
//     words
mod answer;
mod args;
mod book;
mod book_convert;
mod book_file;
mod book_list;
mod book_words;
mod check;
mod codes;
mod completion;
mod diff;
mod diff_match;
mod diff_records;
mod draft;
mod durable;
mod each;
mod facts;
mod fields;
mod files;
mod find;
mod find_query;
mod follow;
mod follow_words;
mod forms;
mod help;
mod input;
mod interrupt;
mod json;
mod keys;
mod manual;
mod meaning;
mod names;
mod output;
mod pictures;
mod places;
mod rows;
mod salvage;
mod salvage_list;
mod salvage_sums;
mod salvage_told;
mod screen;
mod sheet;
mod show;
mod stop;
mod store;
mod summary;
mod tags;
mod taking;
mod tree;
mod tree_rows;
mod usage;
mod verdicts;
mod walk;
mod walked;
mod words;
mod write;

use std::ffi::OsString;
use std::process::ExitCode;

use args::Args;
use stop::{Stop, DONE, TROUBLE};

fn main() -> ExitCode {
    let words: Vec<OsString> = std::env::args_os().skip(1).collect();
    let status = match run(words) {
        Ok(status) => status,
        Err(Stop::Message(status, message)) => {
            screen::complain(&message);
            status
        }
        Err(Stop::Usage(message)) => {
            screen::complain(&format!("{message} (icl --help tells more)"));
            TROUBLE
        }
        Err(Stop::PipeClosed) => DONE,
    };
    ExitCode::from(status)
}

fn run(mut words: Vec<OsString>) -> Result<u8, Stop> {
    if words.is_empty() {
        return Err(Stop::Usage("no command was given".to_string()));
    }
    let command = words.remove(0);
    let Some(help) = help::of(&command.to_string_lossy()) else {
        return Err(Stop::Usage(format!("{} is no command", words::name(&command))));
    };
    if let Some(text) = help::asked(&command, &words, help) {
        screen::print(&text)?;
        return Ok(DONE);
    }
    if command == "book" {
        return book::run(words);
    }
    let (flags, options) = usage::of(&command.to_string_lossy());
    let args = Args::of(words, &flags, &options)?;
    match command.to_str() {
        Some("check") => check::run(args),
        Some("rows") => rows::run(args),
        Some("tree") => tree::run(args),
        Some("picture") => pictures::one(args),
        Some("pictures") => pictures::all(args),
        Some("tags") => tags::run(args),
        Some("draft") => draft::run(args),
        Some("write") => write::run(args),
        Some("salvage") => salvage::run(args),
        Some("find") => find::run(args),
        Some("show") => show::run(args),
        Some("follow") => follow::run(args),
        Some("summary") => summary::run(args),
        Some("diff") => diff::run(args),
        Some("completion") => completion::run(args),
        Some("manual") => manual::run(args),
        _ => Err(Stop::Usage(format!("{} is no command", words::name(&command)))),
    }
}
