//! Recipes written out as texts, for tests, vectors and random texts.

use crate::recipes::{all_right, Part};
use crate::table::{ASSIGN, BINARY, CONSTANT, IF, OUTPUT, SEQUENCE, SKIP, VARIABLE, WHILE};
use crate::tree::SETTLED;

/// By their numbers.
const OPERATORS: [&str; 6] = ["+", "-", "*", "/", "=", "<"];

/// A statement or an expression, with a space between any two words. How sequences are grouped
/// cannot be seen in it.
pub fn written(part: &Part) -> String {
    let Part::Row(kind, parts) = part else {
        unreachable!("a number is written with its row")
    };
    match (*kind, parts.as_slice()) {
        (SKIP, []) => "skip".to_string(),
        (ASSIGN, [Part::Number(to), value]) => format!("set v{to} = {}", written(value)),
        (SEQUENCE, [first, second]) => format!("{} ; {}", written(first), written(second)),
        (IF, [test, then, otherwise]) => format!(
            "if {} then {} else {} end",
            written(test),
            written(then),
            written(otherwise)
        ),
        (WHILE, [test, body]) => format!("while {} do {} end", written(test), written(body)),
        (OUTPUT, [Part::Number(SETTLED), value]) => format!("settled {}", written(value)),
        (OUTPUT, [_, value]) => format!("provisional {}", written(value)),
        (CONSTANT, [Part::Number(value)]) => value.to_string(),
        (VARIABLE, [Part::Number(variable)]) => format!("v{variable}"),
        (BINARY, [Part::Number(operator), left, right]) => format!(
            "( {} {} {} )",
            written(left),
            OPERATORS[*operator as usize],
            written(right)
        ),
        _ => unreachable!("no recipe has this part"),
    }
}

/// The same recipe with its sequences grouped as a text's are: to the right.
pub fn grouped(part: &Part) -> Part {
    match part {
        Part::Row(SEQUENCE, _) => all_right(statements(part)),
        Part::Row(kind, parts) => Part::Row(*kind, parts.iter().map(grouped).collect()),
        Part::Number(number) => Part::Number(*number),
    }
}

/// The statements of a block, each with what is in it grouped.
fn statements(part: &Part) -> Vec<Part> {
    match part {
        Part::Row(SEQUENCE, two) => two.iter().flat_map(statements).collect(),
        _ => vec![grouped(part)],
    }
}
