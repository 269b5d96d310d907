//! Our numbers for the kinds against the Rust's.

use crate::{SyntaxKind, tables};

/// Prints the outcome and tells whether all is equal. Without our file there
/// is nothing to compare, which is told and is no difference.
pub fn check() -> bool {
    if !tables::OUR_KINDS_FOUND {
        println!("kinds: our file is missing, skipped");
        return true;
    }

    let ours = tables::OUR_KINDS;
    let equal = ours
        .iter()
        .filter(|(_, number, rust)| *rust == Some(*number))
        .count();
    let expected = usize::from(SyntaxKind::__LAST as u16) + 1;
    println!(
        "kinds: {} of ours, {expected} of the Rust, {equal} equal",
        ours.len()
    );

    let mut faults = Vec::new();
    for (name, number, rust) in ours {
        match rust {
            Some(rust) if rust == number => {}
            Some(rust) => faults.push(format!("{name} is {number}, the Rust has {rust}")),
            None => faults.push(format!("{name} is {number}, the Rust has no such kind")),
        }
    }
    for name in tables::RUST_KINDS {
        match ours
            .iter()
            .filter(|(our_name, ..)| our_name == name)
            .count()
        {
            0 => faults.push(format!("{name} of the Rust is missing")),
            1 => {}
            times => faults.push(format!("{name} stands {times} times")),
        }
    }
    faults.extend(
        tables::OUR_KINDS_UNREAD
            .iter()
            .map(|line| format!("not read: {line}")),
    );
    if ours.len() != expected {
        faults.push(format!("{} constants in place of {expected}", ours.len()));
    }

    for fault in &faults {
        println!("  DIFFERENT: {fault}");
    }
    faults.is_empty()
}
