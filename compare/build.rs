//! Ties the Rust modules into the build from where they lie, unchanged, and
//! reads out of their text what the cases need: the names of the kinds and
//! the words of both keyword tables. Our own kinds are read here as well.

use std::{
    env,
    error::Error,
    fmt::Write as _,
    fs,
    path::{Path, PathBuf},
    process::ExitCode,
};

type Res<T> = Result<T, Box<dyn Error>>;

const OUR_KINDS: &str = "../crates/syntax_kind/src/kinds.rt";

const MODULES: [&str; 6] = [
    "frontmatter",
    "input",
    "lexed_str",
    "output",
    "shortcuts",
    "syntax_kind",
];

fn main() -> ExitCode {
    match build() {
        Ok(()) => ExitCode::SUCCESS,
        Err(error) => {
            println!("cargo::error={error}");
            ExitCode::FAILURE
        }
    }
}

fn build() -> Res<()> {
    println!("cargo::rerun-if-changed=build.rs");
    println!("cargo::rerun-if-env-changed=RA_AP_PARSER_SRC");
    println!("cargo::rerun-if-env-changed=KINDS_RT");

    let out = PathBuf::from(env::var_os("OUT_DIR").ok_or("OUT_DIR is not set")?);
    let modules = modules_folder()?;
    fs::write(out.join("reference.rs"), reference(&modules)?)?;

    let generated = fs::read_to_string(modules.join("syntax_kind/generated.rs"))?;
    let kinds = enum_names(&generated)?;
    let mut tables = String::new();
    writeln!(tables, "pub const RUST_KINDS: &[&str] = &{kinds:?};")?;
    for (table, function) in [
        ("STRICT_WORDS", "from_keyword"),
        ("CONTEXTUAL_WORDS", "from_contextual_keyword"),
    ] {
        let words = words_of(&generated, function)?;
        writeln!(tables, "pub const {table}: &[&str] = &{words:?};")?;
    }
    our_kinds(&mut tables, &kinds)?;
    fs::write(out.join("tables.rs"), tables)?;
    Ok(())
}

/// The folder with `frontmatter.rs`: the one given, or its `src`.
fn modules_folder() -> Res<PathBuf> {
    let given = env::var_os("RA_AP_PARSER_SRC")
        .ok_or("RA_AP_PARSER_SRC must name the unpacked source of ra_ap_parser 0.0.360")?;
    let given = PathBuf::from(given);
    [given.join("src"), given.clone()]
        .into_iter()
        .find(|folder| folder.join("frontmatter.rs").is_file())
        .ok_or_else(|| format!("no frontmatter.rs in {} or its src", given.display()))?
        .canonicalize()
        .map_err(Into::into)
}

/// An inline module with a path: the files in it, and those below them, are
/// then found where a crate rooted in that folder would find them.
fn reference(modules: &Path) -> Res<String> {
    let mut lines = String::new();
    for module in MODULES {
        let file = modules.join(module).with_extension("rs");
        println!("cargo::rerun-if-changed={}", file.display());
        writeln!(lines, "    pub mod {module};")?;
    }
    let generated = modules.join("syntax_kind/generated.rs");
    println!("cargo::rerun-if-changed={}", generated.display());
    let folder = modules.to_str().ok_or("the folder's name is not UTF-8")?;
    Ok(format!(
        "#[allow(dead_code, unexpected_cfgs, unfulfilled_lint_expectations, clippy::all)]\n\
         #[path = {folder:?}]\n\
         mod reference {{\n{lines}}}\n"
    ))
}

fn enum_names(generated: &str) -> Res<Vec<&str>> {
    let (_, body) = generated
        .split_once("pub enum SyntaxKind {")
        .ok_or("no enum SyntaxKind")?;
    let (body, _) = body
        .split_once('}')
        .ok_or("the enum SyntaxKind has no end")?;
    let lines = body.lines().map(str::trim);
    Ok(lines.filter_map(|line| line.strip_suffix(',')).collect())
}

/// The quoted words at the beginnings of the lines of a function.
fn words_of<'a>(generated: &'a str, function: &str) -> Res<Vec<&'a str>> {
    let head = format!("pub fn {function}(");
    let (_, body) = generated
        .split_once(&head)
        .ok_or_else(|| format!("no {function}"))?;
    let body = body.split("pub fn ").next().unwrap_or(body);
    let quoted = body
        .lines()
        .filter_map(|line| line.trim().strip_prefix('"'));
    let words: Vec<_> = quoted
        .filter_map(|rest| Some(rest.split_once('"')?.0))
        .collect();
    if words.is_empty() {
        return Err(format!("no words found in {function}").into());
    }
    Ok(words)
}

/// Writes our constants beside the Rust's numbers. A name that the Rust does
/// not have gets no number, so that it is told at run time instead of being a
/// compile error here.
fn our_kinds(tables: &mut String, rust: &[&str]) -> Res<()> {
    let path = env::var_os("KINDS_RT").map_or_else(|| PathBuf::from(OUR_KINDS), PathBuf::from);
    println!("cargo::rerun-if-changed={}", path.display());
    let text = match fs::read_to_string(&path) {
        Ok(text) => Some(text),
        Err(error) if error.kind() == std::io::ErrorKind::NotFound => None,
        Err(error) => return Err(format!("{}: {error}", path.display()).into()),
    };

    writeln!(
        tables,
        "pub const OUR_KINDS_FOUND: bool = {};",
        text.is_some()
    )?;
    let mut unread = Vec::new();
    writeln!(
        tables,
        "pub const OUR_KINDS: &[(&str, u16, Option<u16>)] = &["
    )?;
    for line in text.as_deref().unwrap_or_default().lines() {
        let Some(constant) = line.trim().strip_prefix("pub const ") else {
            continue;
        };
        let Some((name, number)) = name_and_number(constant) else {
            unread.push(line.trim());
            continue;
        };
        if rust.contains(&name) {
            writeln!(
                tables,
                "({name:?}, {number}, Some(crate::SyntaxKind::{name} as u16)),"
            )?;
        } else {
            writeln!(tables, "({name:?}, {number}, None),")?;
        }
    }
    writeln!(
        tables,
        "];\npub const OUR_KINDS_UNREAD: &[&str] = &{unread:?};"
    )?;
    Ok(())
}

/// Reads `NAME: u16 = N;`, with or without a comment after it.
fn name_and_number(constant: &str) -> Option<(&str, u16)> {
    let (name, rest) = constant.split_once(':')?;
    let (number, _) = rest.trim().strip_prefix("u16 =")?.split_once(';')?;
    Some((name.trim(), number.trim().parse().ok()?))
}
