//! `icl completion bash`: completes commands, flags, their values and file names in the shell. Made from the lines of use that `--help` prints.

use std::collections::BTreeMap;

use crate::args::Args;
use crate::screen::print;
use crate::stop::{Stop, DONE};
use crate::usage::{self, Use};
use crate::words;

pub fn run(args: Args) -> Result<u8, Stop> {
    let [shell] = args.exactly(["bash"])?;
    if shell != "bash" {
        return Err(Stop::Usage(format!("{} is no shell that is known here: bash is", words::name(shell))));
    }
    print(&script())?;
    Ok(DONE)
}

fn script() -> String {
    let uses = usage::all();
    let mut commands: Vec<&str> = uses.iter().map(|use_of| use_of.command).collect();
    commands.dedup();
    let mut parts: BTreeMap<&str, Vec<&str>> = BTreeMap::new();
    for use_of in &uses {
        parts.entry(use_of.command).or_default().extend(use_of.part);
    }
    let parts = parts.iter().filter(|(_, parts)| !parts.is_empty());
    let parts = parts.map(|(command, parts)| format!("            {command}) words='{}' ;;\n", parts.join(" ")));
    format!(
        "# Completes the words of icl in bash. Made by: icl completion bash
_icl() {{
    local word=${{COMP_WORDS[COMP_CWORD]}} before=${{COMP_WORDS[COMP_CWORD-1]}} command=${{COMP_WORDS[1]}} part=${{COMP_WORDS[2]}} words=
    COMPREPLY=()
    if [ \"$COMP_CWORD\" -eq 1 ]; then
        words='{} --help --version'
    elif [ \"$COMP_CWORD\" -eq 2 ]; then
        case $command in
{}        esac
    fi
    case \"$command $part $before\" in
{}    esac
    if [ -z \"$words\" ] && [ \"${{word:0:1}}\" = - ]; then
        case \"$command $part\" in
{}        esac
        words=\"$words --help\"
    fi
    if [ -n \"$words\" ]; then
        COMPREPLY=($(compgen -W \"$words\" -- \"$word\"))
    else
        compopt -o filenames 2> /dev/null
        mapfile -t COMPREPLY < <(compgen -f -- \"$word\")
    fi
}}
complete -F _icl icl
",
        commands.join(" "),
        parts.collect::<String>(),
        uses.iter().map(values).collect::<String>(),
        flags(&uses)
    )
}

/// The command, and the part behind it, as a pattern of the shell.
fn pattern(use_of: &Use) -> String {
    use_of.part.map_or_else(|| format!("'{} '*", use_of.command), |part| format!("'{} {part}'", use_of.command))
}

/// What may stand behind each flag with a value: one of some words, nothing that is known, or else a file's name.
fn values(use_of: &Use) -> String {
    let value = |(option, value): &(&str, &str)| {
        let before = use_of.part.map_or_else(
            || format!("'{} '*' {option}'", use_of.command),
            |part| format!("'{} {part} {option}'", use_of.command),
        );
        match *value {
            "DIR" | "OUT" | "FILE" => String::new(),
            choices if choices.contains('|') => format!("        {before}) words='{}' ;;\n", choices.replace('|', " ")),
            _ => format!("        {before}) return ;;\n"),
        }
    };
    use_of.options.iter().map(value).collect()
}

/// The flags of each command, those of all its lines together.
fn flags(uses: &[Use]) -> String {
    let mut known: Vec<(String, Vec<&str>)> = Vec::new();
    for use_of in uses {
        let mut flags: Vec<&str> =
            use_of.flags.iter().chain(use_of.options.iter().map(|(option, _)| option)).copied().collect();
        let pattern = pattern(use_of);
        match known.iter_mut().find(|(other, _)| *other == pattern) {
            Some((_, others)) => {
                flags.retain(|flag| !others.contains(flag));
                others.extend(flags);
            }
            None => known.push((pattern, flags)),
        }
    }
    let known = known.iter().filter(|(_, flags)| !flags.is_empty());
    known.map(|(pattern, flags)| format!("            {pattern}) words='{}' ;;\n", flags.join(" "))).collect()
}
