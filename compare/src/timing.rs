//! Big scripts, and how long the Rust takes for them.
//!
//! Lexing is timed over a plain scan in place of the raw lexer, with the rules
//! of our own scanner: what is compared is what lies above it.

use std::{
    fs,
    hint::black_box,
    iter,
    path::Path,
    str,
    sync::mpsc,
    thread,
    time::{Duration, Instant},
};

use rustc_lexer::{FrontmatterAllowed, scan};

use crate::{Edition, LexedStr, Res, reference::frontmatter::ScriptSource};

const REPETITIONS: usize = 9;

/// After this, what has been measured has to do.
const ENOUGH: Duration = Duration::from_secs(10);

/// Prints the medians for decoding, parsing and lexing a file. A run over
/// `patience` is given up.
pub fn time(path: &Path, patience: Duration) -> Res<()> {
    let bytes = fs::read(path).map_err(|error| format!("{}: {error}", path.display()))?;
    println!("{} bytes", bytes.len());
    // Never freed, since a run that is given up may outlive us.
    let bytes: &'static [u8] = bytes.leak();

    measure("from_utf8", patience, || str::from_utf8(black_box(bytes)));
    match str::from_utf8(bytes) {
        Err(error) => println!("not UTF-8 from {} on: not parsed", error.valid_up_to()),
        Ok(text) => {
            measure("parse", patience, || ScriptSource::parse(black_box(text)));
            measure("scan alone", patience, || {
                scan::during(|| scanned(black_box(text)))
            });
            let lexed = measure("lex", patience, || {
                scan::during(|| LexedStr::new(Edition::LATEST, black_box(text)))
            });
            if let Some(lexed) = lexed {
                let errors = lexed.errors().count();
                println!("{} tokens, {errors} errors", lexed.len());
            }
        }
    }
    Ok(())
}

/// The number of tokens, with a tokenizer for each as in lexing: how much of
/// its time is the scan's.
fn scanned(text: &str) -> usize {
    let (mut at, mut count) = (0, 0);
    while let Some(token) = rustc_lexer::tokenize(&text[at..], FrontmatterAllowed::No).next() {
        black_box(token.kind);
        at += token.len as usize;
        count += 1;
    }
    count
}

/// Prints how long the work takes, without letting go of what it makes, and
/// gives back what the last run made.
fn measure<T: Send + 'static>(
    name: &str,
    patience: Duration,
    work: impl Fn() -> T + Send + 'static,
) -> Option<T> {
    let (sender, receiver) = mpsc::channel();
    // Not joined: a run that takes too long ends with the process.
    thread::spawn(move || {
        for _ in 0..REPETITIONS {
            let start = Instant::now();
            let made = work();
            if sender.send((start.elapsed(), made)).is_err() {
                return;
            }
        }
    });

    let start = Instant::now();
    let mut runs = Vec::new();
    let mut last = None;
    while runs.len() < REPETITIONS && (runs.is_empty() || start.elapsed() < ENOUGH) {
        match receiver.recv_timeout(patience) {
            Ok((run, made)) => {
                runs.push(run);
                last = Some(made);
            }
            Err(mpsc::RecvTimeoutError::Timeout) => break,
            Err(mpsc::RecvTimeoutError::Disconnected) => {
                println!("{name:<12} failed");
                return None;
            }
        }
    }
    runs.sort();
    match runs.get(runs.len() / 2) {
        None => println!("{name:<12} over {} s, given up", patience.as_secs()),
        Some(median) => println!(
            "{name:<12} {:>13.8} s (median of {})",
            median.as_secs_f64(),
            runs.len()
        ),
    }
    last
}

/// Writes a big script of one of the three kinds.
pub fn make(kind: &str, size: usize, path: &Path) -> Res<()> {
    let script = match kind {
        "plain" => plain(size)?,
        "fence" => fence(size),
        "well" => well(size)?,
        _ => return Err(format!("no kind {kind}: plain, fence or well").into()),
    };
    fs::write(path, script).map_err(|error| format!("{}: {error}", path.display()).into())
}

/// A good script of `size` bytes, about half of it frontmatter.
fn plain(size: usize) -> Res<Vec<u8>> {
    const HEAD: &str = "#!/usr/bin/env cargo\n\n--- cargo\n";
    const CLOSE: &str = "\n---\n\n";
    const LINES: &[&str] = &[
        "name = \"a-b\" # plain\n",
        "-- no fence, nor is - this ---\n",
        "let text = \"é 日本 😀\";\n",
        "fn main() { println!(\"{}\", 1 - 2); }\n",
    ];
    let room = size.checked_sub(HEAD.len() + CLOSE.len()).ok_or_else(|| {
        format!(
            "a plain script has at least {} bytes",
            HEAD.len() + CLOSE.len()
        )
    })?;

    let mut script = String::with_capacity(size);
    script.push_str(HEAD);
    fill(&mut script, LINES, room / 2);
    script.push_str(CLOSE);
    fill(&mut script, LINES, room - room / 2);
    Ok(script.into_bytes())
}

/// Adds `room` bytes of whole lines, and `x` for what is left.
fn fill(script: &mut String, lines: &[&str], room: usize) {
    let end = script.len() + room;
    for line in lines.iter().cycle() {
        if script.len() + line.len() > end {
            break;
        }
        script.push_str(line);
    }
    script.extend(iter::repeat_n('x', end - script.len()));
}

/// `size` dashes and as many bytes of lines that never close them: the Rust
/// looks through all of those once for each dash.
fn fence(size: usize) -> Vec<u8> {
    let mut script = vec![b'-'; size];
    script.push(b'\n');
    script.extend(b"x\n".iter().cycle().take(size));
    script
}

/// The equations of a well, with remarks: a short frontmatter, then items with
/// numbers of their own up to `size` bytes.
fn well(size: usize) -> Res<Vec<u8>> {
    if size < WELL.len() {
        return Err(format!("a well has at least {} bytes", WELL.len()).into());
    }
    let mut script = String::with_capacity(size);
    script.push_str(WELL);
    for number in 0.. {
        let item = well_item(number);
        if script.len() + item.len() > size {
            break;
        }
        script.push_str(&item);
    }
    // What is left is a remark, or blank lines if it is too short for one.
    match size - script.len() {
        left @ 0..3 => script.extend(iter::repeat_n('\n', left)),
        left => {
            script.push_str("//");
            script.extend(iter::repeat_n('-', left - 3));
            script.push('\n');
        }
    }
    Ok(script.into_bytes())
}

/// How a well begins.
const WELL: &str = "\
#!/usr/bin/env cargo
--- cargo
[package]
edition = \"2024\"
---
//! Porosity and saturation of one well, zone by zone.

";

fn well_item(number: usize) -> String {
    let (whole, part) = (number % 3 + 1, number * 7 % 1000);
    let depth = 1500 + number % 2500;
    match number % 8 {
        0 => format!(
            "/// Matrix density of zone {number} in g/cm3, from core plugs.\n\
             const RHO_MATRIX_{number}: f64 = {whole}.{part:03};\n\n"
        ),
        1 => format!(
            "// Fluid density: mud filtrate in the flushed zone.\n\
             const RHO_FLUID_{number}: f64 = 1.{part:03}; // at {depth} m\n\n"
        ),
        2 => format!(
            "/* Cutoffs, see the report of the {number}th run.\n   /* revised */ */\n\
             const PHI_CUTOFF_{number}: f64 = 0.{part:03};\n"
        ),
        3 => format!(
            "/** Archie's exponents; φ is a fraction. */\n\
             const EXPONENTS_{number}: [f64; 3] = [1., {whole}.{part:03}, 2.0];\n\n"
        ),
        4 => format!(
            "/// φ = (ρ_matrix - ρ_bulk) / (ρ_matrix - ρ_fluid).\n\
             fn porosity_{number}(rho_bulk: f64, rho_matrix: f64) -> f64 {{\n\
             \x20   (rho_matrix - rho_bulk) / (rho_matrix - {whole}.0) // clean sand\n}}\n\n"
        ),
        5 => format!(
            "fn saturation_{number}(phi: f64, rt: f64) -> f64 {{\n\
             \x20   // a R_w / (phi^m R_t)\n\
             \x20   let ratio = 0.62 * 0.{part:03} / (phi.powi(2) * rt);\n\
             \x20   if ratio >= 1.0 {{ 1.0 }} else {{ ratio.sqrt() }}\n}}\n\n"
        ),
        6 => format!("const DEPTHS_{number}: [u32; 4] = [{depth}, {depth}, 1500, 4000];\n"),
        _ => format!(
            "// ---- zone {number} ----\n\n\
             fn is_net_{number}(log: &[f64], at: usize) -> bool {{\n\
             \x20   at < log.len() && log[at] != -999.25 && !(log[at] < 0.08)\n}}\n\n"
        ),
    }
}

#[cfg(test)]
mod tests {
    use super::*;
    use crate::{SyntaxKind, oracle, protocol::Question};

    #[test]
    fn plain_scripts_are_good() {
        for size in [38, 39, 40, 41, 100, 1000, 4321] {
            let script = plain(size).unwrap();
            assert_eq!(script.len(), size);
            let answer = oracle::answer(&Question::Frontmatter(script));
            assert!(
                answer.starts_with("ok shebang=0..21 open=22..25"),
                "{answer}"
            );
        }
        assert!(plain(37).is_err());
    }

    #[test]
    fn fences_stay_open() {
        let answer = oracle::answer(&Question::Frontmatter(fence(10)));
        assert_eq!(answer, "fault B 21..21 0..10");
    }

    #[test]
    fn wells_have_remarks() {
        let head = WELL.len();
        for size in [head, head + 1, head + 2, head + 3, 200, 5000, 5001, 20_000] {
            let script = String::from_utf8(well(size).unwrap()).unwrap();
            assert_eq!(script.len(), size);
            let lexed = scan::during(|| LexedStr::new(Edition::LATEST, &script));
            assert_eq!(lexed.kind(0), SyntaxKind::SHEBANG);
            assert_eq!(lexed.kind(1), SyntaxKind::FRONTMATTER);
            let kinds: Vec<_> = (2..lexed.len()).map(|at| lexed.kind(at)).collect();
            assert!(kinds.contains(&SyntaxKind::INNER_DOC_COMMENT));
            assert_eq!(kinds.contains(&SyntaxKind::COMMENT), size > head + 2);
            assert!(!kinds.contains(&SyntaxKind::ERROR), "{script}");
            assert_eq!(lexed.errors().count(), 0);
        }
        assert!(well(head - 1).is_err());
    }
}
