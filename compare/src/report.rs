//! Runs both sides on all cases and tells where they part.

use std::{
    collections::{BTreeMap, HashSet},
    env, fs,
    fs::File,
    io::{self, BufWriter, Write},
    path::{Path, PathBuf},
    process::{self, Command, ExitStatus},
    time::Instant,
};

use crate::{
    Res,
    cases::{self, Case, Class, Part},
    difference::{self, Expected},
    kinds, messages, oracle,
    protocol::{Asked, Question},
};

/// Stands for an answer that our side did not give.
const NO_ANSWER: &str = "(no answer)";

pub struct Options {
    pub ours: Ours,
    pub part: Part,
    pub seed: u64,
    pub random: usize,
    /// How many unnamed differences to print; all of them without it.
    pub limit: Option<usize>,
    pub write_cases: Option<PathBuf>,
    pub write_answers: Option<PathBuf>,
}

pub enum Ours {
    Programs(Programs),
    /// The expected answers, to try out everything but the other program.
    Expected,
    /// Nothing is compared.
    None,
}

/// The programs of our side: one for the questions with tapes, one for all
/// others. They may be the same.
pub struct Programs {
    pub scripts: PathBuf,
    pub tapes: PathBuf,
}

#[derive(Clone, Copy, Default)]
struct Counts {
    equal: usize,
    named: usize,
    unnamed: usize,
}

impl Counts {
    fn all(self) -> usize {
        self.equal + self.named + self.unnamed
    }

    fn add(&mut self, other: Counts) {
        self.equal += other.equal;
        self.named += other.named;
        self.unnamed += other.unnamed;
    }
}

/// Tells whether nothing but named differences was found.
pub fn check(options: &Options) -> Res<bool> {
    let kinds_equal = kinds::check();
    let cases = cases::cases(options.part, options.seed, options.random);
    println!(
        "cases: {} with seed {} and {} random scripts",
        cases.len(),
        options.seed,
        options.random
    );

    let questions = cases.iter().map(|case| &case.question);
    if let Some(path) = &options.write_cases {
        write_lines(path, questions.clone())?;
    }

    let start = Instant::now();
    let rust: Vec<String> = oracle::quietly(|| questions.clone().map(oracle::answer).collect());
    println!(
        "the Rust answered in {:.1} s",
        start.elapsed().as_secs_f64()
    );
    if let Some(path) = &options.write_answers {
        write_lines(path, rust.iter())?;
    }
    let asked = questions.zip(&rust);
    let expected: Vec<Expected> = oracle::quietly(|| {
        asked
            .map(|(question, rust)| difference::expected(question, rust))
            .collect()
    });

    let equal = match &options.ours {
        Ours::None => true,
        Ours::Expected => {
            let answers: Vec<&str> = expected.iter().map(|due| due.answer.as_str()).collect();
            compare(&cases, &rust, &expected, &answers.join("\n"), options.limit)
        }
        Ours::Programs(programs) => {
            let start = Instant::now();
            let (success, output) = ask(programs, &cases)?;
            println!(
                "our side answered in {:.1} s",
                start.elapsed().as_secs_f64()
            );
            compare(&cases, &rust, &expected, &output, options.limit) && success
        }
    };
    distribution(&cases, &rust);
    if options.part != Part::Scripts {
        reached(&cases, &rust);
    }
    Ok(kinds_equal && equal)
}

/// Asks each program its questions. Tells whether both ended well, and the
/// answers in the order of the cases.
fn ask(programs: &Programs, cases: &[Case]) -> Res<(bool, String)> {
    let (tapes, scripts): (Vec<&Case>, Vec<&Case>) = cases
        .iter()
        .partition(|case| matches!(case.question, Question::Lexing(_)));
    let mut success = true;
    let mut answers = |program: &Path, cases: &[&Case]| -> Res<String> {
        if cases.is_empty() {
            return Ok(String::new());
        }
        let (status, output) = run(program, cases)?;
        if !status.success() {
            println!("DIFFERENT: {} ended with {status}", program.display());
            success = false;
        }
        Ok(output)
    };
    let scripts = answers(&programs.scripts, &scripts)?;
    let tapes = answers(&programs.tapes, &tapes)?;
    Ok((success, merged(cases, &scripts, &tapes)))
}

/// One answer a line in the order of the cases; what a program printed beyond
/// its own comes last.
fn merged(cases: &[Case], scripts: &str, tapes: &str) -> String {
    let (mut scripts, mut tapes) = (scripts.lines(), tapes.lines());
    let mut answers: Vec<&str> = cases
        .iter()
        .map(|case| {
            let next = match case.question {
                Question::Lexing(_) => tapes.next(),
                _ => scripts.next(),
            };
            next.unwrap_or(NO_ANSWER)
        })
        .collect();
    answers.extend(scripts.chain(tapes));
    answers.join("\n")
}

/// One process gets all its questions from a file and answers into another.
fn run(program: &Path, cases: &[&Case]) -> Res<(ExitStatus, String)> {
    let folder = env::temp_dir().join(format!("compare-{}", process::id()));
    fs::create_dir_all(&folder)?;
    let (questions, answers) = (folder.join("questions"), folder.join("answers"));
    let outcome = write_lines(&questions, cases.iter().map(|case| &case.question)).and_then(|()| {
        let status = Command::new(program)
            .stdin(File::open(&questions)?)
            .stdout(File::create(&answers)?)
            .status()
            .map_err(|error| format!("{}: {error}", program.display()))?;
        Ok((
            status,
            String::from_utf8_lossy(&fs::read(&answers)?).into_owned(),
        ))
    });
    fs::remove_dir_all(&folder)?;
    outcome
}

fn compare(
    cases: &[Case],
    rust: &[String],
    expected: &[Expected],
    output: &str,
    limit: Option<usize>,
) -> bool {
    let mut classes: BTreeMap<Class, Counts> = BTreeMap::new();
    let mut names: BTreeMap<&str, Counts> = BTreeMap::new();
    let mut unnamed = Vec::new();

    let mut lines = output.lines();
    for ((case, rust), expected) in cases.iter().zip(rust).zip(expected) {
        let ours = lines.next().unwrap_or(NO_ANSWER);
        let mut counts = Counts::default();
        if ours != expected.answer {
            counts.unnamed = 1;
            unnamed.push((case, rust, &expected.answer, ours));
        } else if expected.names.is_empty() {
            counts.equal = 1;
        } else {
            counts.named = 1;
        }
        classes.entry(case.class()).or_default().add(counts);
        for name in &expected.names {
            names.entry(name).or_default().add(counts);
        }
    }
    let surplus = lines.count();

    println!();
    row("class", ["cases", "equal", "named", "unnamed"]);
    let mut total = Counts::default();
    for (class, counts) in &classes {
        total.add(*counts);
        counted_row(class, *counts);
    }
    counted_row("all", total);
    for (name, counts) in &names {
        println!(
            "{name}: {} cases, {} different as named, {} otherwise",
            counts.all(),
            counts.named,
            counts.unnamed
        );
    }

    for (case, rust, expected, ours) in unnamed.iter().take(limit.unwrap_or(usize::MAX)) {
        println!("\nDIFFERENT: {}", case.class());
        println!("  asked  {}", case.question);
        println!("  text   {}", case.question.escaped());
        println!("  Rust   {rust}");
        if rust != expected {
            println!("  due    {expected}");
        }
        println!("  ours   {ours}");
    }
    if surplus > 0 {
        println!("\nDIFFERENT: our side printed {surplus} more lines than it was asked");
    }
    unnamed.is_empty() && surplus == 0
}

fn counted_row(class: impl std::fmt::Display, counts: Counts) {
    row(
        class,
        [counts.all(), counts.equal, counts.named, counts.unnamed],
    );
}

fn row<T: std::fmt::Display>(first: impl std::fmt::Display, rest: [T; 4]) {
    let [a, b, c, d] = rest;
    println!("{first:<32} {a:>9} {b:>9} {c:>9} {d:>9}");
}

/// How often the Rust gave which sort of answer, to see that the cases reach
/// all of them.
fn distribution(cases: &[Case], rust: &[String]) {
    let mut shapes: BTreeMap<Class, BTreeMap<String, usize>> = BTreeMap::new();
    for (case, answer) in cases.iter().zip(rust) {
        *shapes
            .entry(case.class())
            .or_default()
            .entry(shape(&case.question, answer))
            .or_default() += 1;
    }
    println!("\nanswers of the Rust");
    for (class, shapes) in &shapes {
        let shapes: Vec<_> = shapes
            .iter()
            .map(|(shape, count)| format!("{shape} {count}"))
            .collect();
        println!("{class:<32} {}", shapes.join(", "));
    }
}

/// How often the walks over the tapes came upon a mark of each raw kind, and
/// how often the Rust gave each message.
fn reached(cases: &[Case], rust: &[String]) {
    let mut kinds = [0; tape::KINDS as usize];
    let mut codes = [0; messages::LAST as usize + 1];
    for (case, answer) in cases.iter().zip(rust) {
        let Question::Lexing(lexing) = &case.question else {
            continue;
        };
        let parts: Vec<&str> = answer.split('|').collect();
        let [_, starts, errors] = parts[..] else {
            continue;
        };
        if lexing.asked != Asked::Columns {
            continue;
        }
        let starts: HashSet<usize> = starts.split(',').flat_map(str::parse).collect();
        for mark in &lexing.tape.marks {
            kinds[usize::from(mark.kind)] += usize::from(starts.contains(&mark.place));
        }
        for error in errors.split(',').filter_map(|error| error.split_once(':')) {
            codes[error.1.parse().unwrap_or(0)] += 1;
        }
    }
    println!("\nraw kinds in the columns {}", numbered(&kinds));
    println!("messages in the columns {}", numbered(&codes));
}

fn numbered(counts: &[usize]) -> String {
    let counts = counts.iter().enumerate();
    let counts: Vec<String> = counts.map(|(at, count)| format!("{at}:{count}")).collect();
    counts.join(" ")
}

/// The sort of an answer: what is left of it without its numbers.
pub fn shape(question: &Question, answer: &str) -> String {
    if let Question::Lexing(lexing) = question
        && answer != oracle::PANIC
    {
        let shape = match lexing.asked {
            Asked::Columns if answer.ends_with("|-") => "no errors",
            Asked::Columns => "errors",
            Asked::Input if answer.ends_with('-') => "empty",
            Asked::Input if answer.rsplit('|').next().unwrap_or("").contains('1') => "some joint",
            Asked::Input => "none joint",
            Asked::Single if answer == "-" => "none",
            Asked::Single if answer.contains(':') => "kind and error",
            Asked::Single => "kind",
        };
        return shape.into();
    }
    let words: Vec<&str> = answer.split(' ').collect();
    match words[..] {
        ["ok", ..] => {
            let parts = ["shebang", "info", "frontmatter"]
                .into_iter()
                .filter(|part| {
                    let prefix = format!("{part}=");
                    words
                        .iter()
                        .any(|word| word.strip_prefix(&prefix).is_some_and(|span| span != "-"))
                });
            let parts: Vec<&str> = parts.collect();
            if parts.is_empty() {
                "ok".into()
            } else {
                format!("ok({})", parts.join("+"))
            }
        }
        ["fault" | "refused", which, ..] => format!("{}({which})", words[0]),
        ["keyword", "-", "contextual", "-"] => "neither".into(),
        ["keyword", _, "contextual", "-"] => "keyword".into(),
        ["keyword", "-", "contextual", _] => "contextual".into(),
        _ => answer.into(),
    }
}

pub fn write_lines(path: &Path, lines: impl Iterator<Item = impl std::fmt::Display>) -> Res<()> {
    let write = || -> io::Result<()> {
        let mut file = BufWriter::new(File::create(path)?);
        for line in lines {
            writeln!(file, "{line}")?;
        }
        file.flush()
    };
    write().map_err(|error| format!("{}: {error}", path.display()).into())
}

#[cfg(test)]
mod tests {
    use super::*;
    use crate::cases::Source;

    #[test]
    fn shapes() {
        let question = Question::Frontmatter(Vec::new());
        let shape = |answer| shape(&question, answer);
        let plain = "ok shebang=- open=- info=- frontmatter=- close=- content=0..1";
        assert_eq!(shape(plain), "ok");
        let whole = "ok shebang=0..4 open=4..7 info=- frontmatter=8..8 close=8..11 content=11..11";
        assert_eq!(shape(whole), "ok(shebang+frontmatter)");
        assert_eq!(shape("fault A 1..1 0..1"), "fault(A)");
        assert_eq!(shape("keyword 7 contextual -"), "keyword");
        assert_eq!(shape("panic"), "panic");
    }

    fn case(line: &str) -> Case {
        Case {
            source: Source::ScriptsRandom,
            question: line.parse().unwrap(),
        }
    }

    #[test]
    fn answers_come_in_the_order_of_the_cases() {
        let cases = ["L 0 - 0;-", "T 3", "S 0 - 0;-", "T 4"].map(case);
        let merged = |scripts, tapes| merged(&cases, scripts, tapes);
        assert_eq!(merged("a\nb\n", "c\nd\n"), "c\na\nd\nb");
        assert_eq!(merged("a\n", "c\nd\n"), "c\na\nd\n(no answer)");
        assert_eq!(merged("a\nb\nx\n", "c\nd\ny\n"), "c\na\nd\nb\nx\ny");
    }

    #[test]
    fn only_the_named_differences_pass() {
        // A shebang by our rule alone, a fault, and `+a-` whose joint marks
        // are others in ours.
        let cases = [
            case("F 2321c2a05b"),
            case("F 2d"),
            case("I 0 2b612d 0;0:64:1,1:14:1,2:61:1"),
        ];
        let questions = cases.iter().map(|case| &case.question);
        let rust: Vec<String> = questions.map(oracle::answer).collect();
        let pairs = cases.iter().zip(&rust);
        let expected: Vec<Expected> = pairs
            .map(|(case, rust)| difference::expected(&case.question, rust))
            .collect();
        let passes = |lines: &[&str]| compare(&cases, &rust, &expected, &lines.join("\n"), None);

        let [white, fault, joint] = [0, 1, 2].map(|at| expected[at].answer.as_str());
        assert!(white != rust[0] && fault == rust[1] && joint != rust[2]);
        assert!(passes(&[white, fault, joint]));
        // Nothing else does, not even what the Rust answers.
        assert!(!passes(&[&rust[0], fault, joint]));
        assert!(!passes(&[white, fault, &rust[2]]));
        assert!(!passes(&["panic", fault, joint]));
        assert!(!passes(&[white, "panic", joint]));
        assert!(!passes(&[white, fault]));
        assert!(!passes(&[white, fault, joint, "more"]));
    }
}
