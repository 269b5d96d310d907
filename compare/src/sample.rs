//! A small fixed choice of the cases, to be asked on every change without the
//! Rust at hand.

use std::{
    collections::{BTreeMap, BTreeSet, HashSet},
    path::Path,
};

use crate::{
    Res,
    cases::{self, Case, Class, Part, Source},
    difference::{self, Expected},
    oracle,
    protocol::{Asked, Lexing, Question},
    random::Random,
    report::{shape, write_lines},
};

/// Longer questions would only make the sample bulky.
const LONGEST_LINE: usize = 240;

/// But a few of up to this length show what only many tokens do.
const LONGEST_TAPE: usize = 3000;

/// Random scripts to choose from.
const RANDOM: usize = 30_000;

/// A question by its number among the cases, and our answer to it.
type Chosen = BTreeMap<usize, String>;

/// Writes `count` questions, fewer if there are not as many, and the answers
/// to them.
pub fn write(count: usize, seed: u64, part: Part, questions: &Path, answers: &Path) -> Res<()> {
    let cases = cases::cases(part, seed, RANDOM);
    let chosen = oracle::quietly(|| match part {
        Part::Scripts => Ok(choose(&cases, count, seed)),
        Part::Tapes => Ok(choose_tapes(&cases, count, seed)),
        Part::All => Err("a sample is of scripts or of tapes"),
    })?;
    write_lines(questions, chosen.keys().map(|at| &cases[*at].question))?;
    write_lines(answers, chosen.values())?;

    let mut counts: BTreeMap<(Class, String), usize> = BTreeMap::new();
    for (at, answer) in &chosen {
        let case = &cases[*at];
        let shape = shape(&case.question, answer);
        *counts.entry((case.class(), shape)).or_default() += 1;
    }
    println!("sample: {} cases with seed {seed}", chosen.len());
    for ((class, shape), count) in counts {
        println!("{class:<32} {shape:<28} {count:>6}");
    }
    Ok(())
}

/// The Rust's answer to a question, and what ours is to be.
fn answers(question: &Question) -> (String, Expected) {
    let rust = oracle::answer(question);
    let expected = difference::expected(question, &rust);
    (rust, expected)
}

/// Every keyword of the tables, if they leave half of the room, as each is a
/// rule by itself; then takes turns among all pairs of class and sort of
/// answer, so that rare answers are in the sample as well. Named differences
/// are left out: there the Rust's answer is not ours.
fn choose(cases: &[Case], count: usize, seed: u64) -> Chosen {
    let mut seen = HashSet::new();
    let mut groups: BTreeMap<(Class, String), Vec<usize>> = BTreeMap::new();
    let mut given = BTreeMap::new();
    for (at, case) in cases.iter().enumerate() {
        let line = case.question.to_string();
        if case.source == Source::ScriptsLong || line.len() > LONGEST_LINE {
            continue;
        }
        let (rust, expected) = answers(&case.question);
        if !expected.names.is_empty() || !seen.insert(line) {
            continue;
        }
        groups
            .entry((case.class(), shape(&case.question, &rust)))
            .or_default()
            .push(at);
        given.insert(at, rust);
    }

    let mut random = Random::new(seed, 6);
    for group in groups.values_mut() {
        random.shuffle(group);
    }
    let mut chosen: BTreeSet<usize> = groups
        .iter()
        .filter(|((class, shape), _)| class.source == Source::KeywordsTables && shape != "neither")
        .flat_map(|(_, group)| group.iter().copied())
        .collect();
    if 2 * chosen.len() > count {
        chosen.clear();
    }
    while chosen.len() < count {
        let mut none_left = true;
        for group in groups.values_mut() {
            if chosen.len() < count
                && let Some(at) = group.pop()
            {
                chosen.insert(at);
                none_left = false;
            }
        }
        if none_left {
            break;
        }
    }
    given.retain(|at, _| chosen.contains(at));
    given
}

/// Half of the questions ask for columns, a quarter each for the parser input
/// and for single tokens. First come cases that show something that none
/// before has shown, then any. The answers are ours, so named differences are
/// among them, but for what the Rust panics on, and for shebangs, which are
/// not about tapes.
fn choose_tapes(cases: &[Case], count: usize, seed: u64) -> Chosen {
    let mut chosen = Chosen::new();
    for (asked, share) in [
        (Asked::Input, count / 4),
        (Asked::Single, count / 4),
        (Asked::Columns, count - count / 4 * 2),
    ] {
        let mut order: Vec<usize> = (0..cases.len()).collect();
        order.retain(|at| cases[*at].class().asked == Some(asked));
        Random::new(seed, 10).shuffle(&mut order);
        let mut seen = HashSet::new();
        let mut candidates = Vec::new();
        for at in order {
            let line = cases[at].question.to_string();
            let is_long = line.len() > LONGEST_LINE;
            if line.len() <= LONGEST_TAPE && seen.insert(line) {
                candidates.push((at, is_long));
            }
        }
        candidates.sort_by_key(|(_, is_long)| !is_long);

        let mut taken = Chosen::new();
        let mut shown = HashSet::new();
        let mut rest = Vec::new();
        for (at, is_long) in candidates {
            let Question::Lexing(lexing) = &cases[at].question else {
                continue;
            };
            let Some(expected) = sound(&cases[at].question) else {
                continue;
            };
            let mut features = features(lexing, &expected);
            features.retain(|feature| !is_long || feature.starts_with(MANY));
            let is_new = features.iter().any(|feature| !shown.contains(feature));
            if is_new && taken.len() < share {
                shown.extend(features);
                taken.insert(at, expected.answer);
            } else if !is_long {
                rest.push((at, expected.answer));
            }
        }
        let left = share - taken.len();
        chosen.extend(taken);
        chosen.extend(rest.into_iter().take(left));
    }
    chosen
}

/// What our answer is to be, if the question is one for the sample.
fn sound(question: &Question) -> Option<Expected> {
    let (rust, expected) = answers(question);
    let passed_over = rust == oracle::PANIC
        || expected.names.contains(&difference::SHEBANG_WHITE_SPACE)
        || expected
            .names
            .contains(&difference::LITERAL_WITHOUT_ITS_QUOTES);
    (!passed_over).then_some(expected)
}

/// For this a long script may be in the sample.
const MANY: &str = "words ";

/// What a case shows.
fn features(lexing: &Lexing, expected: &Expected) -> Vec<String> {
    let edition = lexing.edition;
    let names = expected.names.iter();
    let mut features: Vec<String> = names.map(|name| format!("{edition} {name}")).collect();
    let parts: Vec<&str> = expected.answer.split('|').collect();
    let list = |at: usize| parts.get(at).map_or("", |part| *part).split(',');
    match lexing.asked {
        Asked::Columns => {
            let starts: HashSet<usize> = list(1).flat_map(str::parse).collect();
            let reached = lexing.tape.marks.iter();
            let reached = reached.filter(|mark| starts.contains(&mark.place));
            features.extend(reached.map(|mark| format!("{edition} raw {}", mark.kind)));
            features.extend(list(0).map(|kind| format!("{edition} kind {kind}")));
            let codes = list(2).filter_map(|error| error.split_once(':'));
            features.extend(codes.map(|(_, code)| format!("{edition} code {code}")));
            features.push(format!("{MANY}{}", list(0).count() / 64));
        }
        Asked::Input => {
            let joint = list(2).next().unwrap_or("").chars();
            let marked = list(0).zip(joint);
            features.extend(marked.map(|(kind, mark)| format!("kind {kind} {mark}")));
            features.extend(list(1).map(|kind| format!("{edition} contextual {kind}")));
            features.push(format!("{MANY}{}", list(0).count() / 64));
        }
        Asked::Single => {
            let raw = lexing.tape.marks.first().map(|mark| mark.kind);
            let code = expected.answer.split_once(':').map_or("", |(_, code)| code);
            features.push(format!("{edition} raw {raw:?}"));
            features.push(format!("{edition} code {code}"));
            features.push(format!("kind {}", expected.answer));
        }
    }
    features
}

#[cfg(test)]
mod tests {
    use super::*;

    #[test]
    fn samples_of_tapes() {
        let cases = cases::tapes(1, 3000);
        let chosen = choose_tapes(&cases, 103, 1);
        let mut counts: BTreeMap<Option<Asked>, usize> = BTreeMap::new();
        for (at, answer) in &chosen {
            let case = &cases[*at];
            *counts.entry(case.class().asked).or_default() += 1;
            let (rust, expected) = answers(&case.question);
            assert!(rust != oracle::PANIC && expected.answer == *answer);
        }
        let [columns, input, single] = Asked::ALL.map(|asked| counts[&Some(asked)]);
        assert_eq!((columns, input, single), (53, 25, 25));
        assert!(chosen == choose_tapes(&cases, 103, 1));
    }
}
