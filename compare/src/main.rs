//! Asks the Rust modules and our port of them the same and compares the
//! answers. See README.md.

mod cases;
mod difference;
mod kinds;
mod lexing;
mod messages;
mod oracle;
mod protocol;
mod random;
mod report;
mod sample;
mod tapes;
mod timing;

/// What the build script read out of the Rust's text and ours.
mod tables {
    include!(concat!(env!("OUT_DIR"), "/tables.rs"));
}

// The Rust modules themselves, as the module `reference`.
include!(concat!(env!("OUT_DIR"), "/reference.rs"));

use std::{
    collections::HashMap,
    env,
    error::Error,
    io::{self, BufRead as _, BufWriter, Write as _},
    path::PathBuf,
    process::ExitCode,
    str::FromStr,
    time::Duration,
};

// The Rust modules look for all of these in the root of their crate.
use crate::reference::{
    frontmatter,
    input::Input,
    lexed_str::LexedStr,
    output::{Output, Step},
    syntax_kind::SyntaxKind,
};
use T_ as T;
use edition::Edition;

use crate::{
    cases::Part,
    report::{Ours, Programs},
};

type Res<T> = Result<T, Box<dyn Error>>;

const USAGE: &str = "\
usage:
  compare check [--ours PROGRAM [--tokens PROGRAM] | --self] [--seed N]
                [--random N] [--limit N] [--of scripts|tapes]
                [--write-cases FILE] [--write-answers FILE]
  compare sample --cases N --write-cases FILE --write-answers FILE [--seed N]
                 [--of scripts|tapes]
  compare ask [--due]
  compare time FILE [--patience SECONDS]
  compare make plain|fence|well SIZE FILE";

fn main() -> ExitCode {
    match run(env::args().skip(1)) {
        Ok(true) => ExitCode::SUCCESS,
        Ok(false) => ExitCode::from(1),
        Err(error) => {
            eprintln!("compare: {error}");
            ExitCode::from(2)
        }
    }
}

fn run(mut words: impl Iterator<Item = String>) -> Res<bool> {
    let command = words.next().ok_or(USAGE)?;
    let mut given = Given::read(words)?;
    let equal = match command.as_str() {
        "check" => {
            let ours = match (given.path("ours"), given.path("tokens"), given.flag("self")) {
                (Some(scripts), tapes, false) => Ours::Programs(Programs {
                    tapes: tapes.unwrap_or_else(|| scripts.clone()),
                    scripts,
                }),
                (None, None, true) => Ours::Expected,
                (None, None, false) => Ours::None,
                (_, _, true) => return Err("--self stands alone".into()),
                (None, Some(_), false) => return Err("--tokens needs --ours".into()),
            };
            let options = report::Options {
                ours,
                part: given.part()?.unwrap_or(Part::All),
                seed: given.number("seed")?.unwrap_or(1),
                random: given.number("random")?.unwrap_or(300_000),
                limit: given.number("limit")?,
                write_cases: given.path("write-cases"),
                write_answers: given.path("write-answers"),
            };
            given.done()?;
            report::check(&options)?
        }
        "sample" => {
            let count = given.number("cases")?.ok_or("--cases is missing")?;
            let seed = given.number("seed")?.unwrap_or(1);
            let questions = given
                .path("write-cases")
                .ok_or("--write-cases is missing")?;
            let answers = given
                .path("write-answers")
                .ok_or("--write-answers is missing")?;
            let part = given.part()?.unwrap_or(Part::Scripts);
            given.done()?;
            sample::write(count, seed, part, &questions, &answers)?;
            true
        }
        "ask" => {
            let due = given.flag("due");
            given.done()?;
            oracle::quietly(|| ask(due))?;
            true
        }
        "time" => {
            let patience = given.number("patience")?.unwrap_or(120);
            let file = given.place()?;
            given.done()?;
            timing::time(file.as_ref(), Duration::from_secs(patience))?;
            true
        }
        "make" => {
            let (kind, size, file) = (given.place()?, given.place()?, given.place()?);
            given.done()?;
            timing::make(&kind, parsed("SIZE", &size)?, file.as_ref())?;
            true
        }
        _ => return Err(USAGE.into()),
    };
    Ok(equal)
}

/// The Rust in the place of our program: answers the lines it reads, with its
/// own answers or with those that are due from our side.
fn ask(due: bool) -> Res<()> {
    let mut out = BufWriter::new(io::stdout().lock());
    for line in io::stdin().lock().lines() {
        let question = line?.parse()?;
        let mut answer = oracle::answer(&question);
        if due {
            answer = difference::expected(&question, &answer).answer;
        }
        writeln!(out, "{answer}")?;
    }
    Ok(out.flush()?)
}

/// The words after the command: places in order, options by name.
struct Given {
    places: std::vec::IntoIter<String>,
    options: HashMap<String, String>,
}

impl Given {
    fn read(mut words: impl Iterator<Item = String>) -> Res<Given> {
        let (mut places, mut options) = (Vec::new(), HashMap::new());
        while let Some(word) = words.next() {
            match word.strip_prefix("--") {
                None => places.push(word),
                Some(flag @ ("self" | "due")) => drop(options.insert(flag.into(), String::new())),
                Some(name) => {
                    let value = words
                        .next()
                        .ok_or_else(|| format!("{word} needs a value"))?;
                    options.insert(name.into(), value);
                }
            }
        }
        Ok(Given {
            places: places.into_iter(),
            options,
        })
    }

    fn place(&mut self) -> Res<String> {
        self.places.next().ok_or_else(|| USAGE.into())
    }

    fn flag(&mut self, name: &str) -> bool {
        self.options.remove(name).is_some()
    }

    fn text(&mut self, name: &str) -> Option<String> {
        self.options.remove(name)
    }

    fn part(&mut self) -> Res<Option<Part>> {
        match self.text("of").as_deref() {
            None => Ok(None),
            Some("scripts") => Ok(Some(Part::Scripts)),
            Some("tapes") => Ok(Some(Part::Tapes)),
            Some(other) => Err(format!("--of {other}: scripts or tapes").into()),
        }
    }

    fn path(&mut self, name: &str) -> Option<PathBuf> {
        self.text(name).map(PathBuf::from)
    }

    fn number<T: FromStr>(&mut self, name: &str) -> Res<Option<T>> {
        self.text(name).map(|text| parsed(name, &text)).transpose()
    }

    /// Nothing may be left over, lest a slip goes unseen.
    fn done(mut self) -> Res<()> {
        match self.places.next().or(self.options.into_keys().next()) {
            Some(word) => Err(format!("{word} is not understood\n{USAGE}").into()),
            None => Ok(()),
        }
    }
}

fn parsed<T: FromStr>(name: &str, text: &str) -> Res<T> {
    text.parse()
        .map_err(|_| format!("{name}: {text} is no number").into())
}
