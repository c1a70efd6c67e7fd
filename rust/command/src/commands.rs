//! The commands: a table with one line for each.

mod build;
mod check;
mod explain;
mod fill;
mod levels;
mod methods;
mod order;
mod run;
mod show;
mod take;
mod trace;
mod usage;

use crate::report::Report;
use std::ffi::{OsStr, OsString};
use std::path::Path;

/// One command of the tool.
struct Command {
    name: &'static str,
    /// The words that it takes.
    words: &'static str,
    /// What it does, in a few words.
    summary: &'static str,
    /// What else there is to say.
    help: &'static str,
    run: fn(&[OsString]) -> Result<Report, String>,
}

/// Every command, in the order in which the help lists them.
const COMMANDS: [Command; 11] = [
    check::COMMAND,
    show::COMMAND,
    explain::COMMAND,
    fill::COMMAND,
    order::COMMAND,
    trace::COMMAND,
    run::COMMAND,
    methods::COMMAND,
    take::COMMAND,
    usage::COMMAND,
    build::COMMAND,
];

/// Runs the command that the words name; an error is one line.
pub fn run(words: &[OsString]) -> Result<Report, String> {
    let Some((first, rest)) = words.split_first() else {
        return Err("no command; hveitmar --help lists them".to_string());
    };
    if first == "--help" {
        return Ok(Report::done(overview()));
    }
    match COMMANDS.iter().find(|command| first == command.name) {
        Some(command) => command.on(rest),
        // The short form: a name that is a command is never a file.
        None if first == "-" || Path::new(first).exists() => check::COMMAND.on(words),
        None => Err(format!(
            "{}: neither a command nor a file; hveitmar --help lists the commands",
            first.to_string_lossy()
        )),
    }
}

impl Command {
    /// Gives help where it is asked for, else runs with these words.
    fn on(&self, words: &[OsString]) -> Result<Report, String> {
        if words.iter().any(|word| word == "--help") {
            return Ok(Report::done(self.full_help()));
        }
        let unknown = |word: &&OsString| is_option(word) && !self.takes(word);
        if let Some(option) = words.iter().find(unknown) {
            let option = option.to_string_lossy();
            return Err(self.complaint(&format!("unknown option {option}")));
        }
        (self.run)(words)
    }

    fn synopsis(&self) -> String {
        format!("hveitmar {} {}", self.name, self.words)
            .trim_end()
            .to_string()
    }

    fn full_help(&self) -> String {
        format!("{}\n\n{}\n{}\n", self.synopsis(), self.summary, self.help)
    }

    /// The options that it takes stand among its words.
    fn takes(&self, option: &OsStr) -> bool {
        let mut words = self.words.split(['[', ']', ' ']);
        words.any(|word| option == word)
    }

    /// One line on words that the command does not take.
    fn complaint(&self, what: &str) -> String {
        let name = self.name;
        format!("{name}: {what}; hveitmar {name} --help says what it takes")
    }

    /// The only word, which is a file.
    fn only_file<'a>(&self, words: &'a [OsString]) -> Result<&'a OsStr, String> {
        match words {
            [file] => Ok(file),
            [] => Err(self.complaint("no file")),
            _ => Err(self.complaint("more than one file")),
        }
    }
}

/// `-` alone is standard input.
fn is_option(word: &OsStr) -> bool {
    word.len() > 1 && word.to_string_lossy().starts_with('-')
}

fn overview() -> String {
    let lines: Vec<Vec<String>> = COMMANDS
        .iter()
        .map(|command| {
            vec![
                format!("    {}", command.synopsis()),
                command.summary.to_string(),
            ]
        })
        .collect();
    format!(
        "hveitmar tells whether compiled methods use their locks properly.\n\n\
         {}\n\
         Each command says more with --help. Without a word, hveitmar judges standard\n\
         input and prints one line. FILE.. alone is check FILE..; a file that has a\n\
         command's name is given as ./NAME.\n\n\
         Status 0: accepted or done; 1: refused; 2: a bad command line or file.\n",
        listing::columns(&lines)
    )
}
