//! Vectors of the operators, J among them, and of mark sets.

use super::{marks_case, operator_case, Setting, Vector};
use crate::recipes::*;
use crate::tree::PROVISIONAL;

const HIGHEST: u32 = u32::MAX;
const HALF: u32 = 1 << 31;

pub fn vectors() -> Vec<Vector> {
    let mut vectors = operators();
    vectors.extend(mark_sets());
    vectors
}

/// J, and each operator at the ends of the range and of its halves.
fn operators() -> Vec<Vector> {
    let names = ["sum", "difference", "product", "quotient", "equal", "less"];
    let pairs = [
        (0, 0),
        (5, 0),
        (0, 1),
        (7, 2),
        (2, 7),
        (HIGHEST, 1),
        (1, HIGHEST),
        (HIGHEST, HIGHEST),
        (65536, 65537),
        (65536, 65536),
        (65535, 65536),
        (65537, 65537),
        (65536, 0),
        (HALF, HALF),
        (HALF - 1, HALF),
        (HALF, HIGHEST),
        (HIGHEST, 2),
    ];
    let mut vectors = Vec::new();
    for (operator, name) in (0..).zip(names) {
        for (left, right) in pairs {
            let name = format!("{name}-{left}-{right}");
            vectors.push(operator_case(&name, operator, left, right));
        }
        // The same pairs in one job, a record for each.
        let told = pairs.map(|(left, right)| {
            let value = binary(operator, constant(left), constant(right));
            output(PROVISIONAL, value)
        });
        let job = Setting::of(&all(told)).room(pairs.len()).job_text();
        vectors.push(Vector::job(&format!("j-{name}"), job));
    }
    for operator in [6, HIGHEST] {
        for (left, right) in [(3, 4), (4, 3)] {
            let name = format!("number-{operator}-{left}-{right}");
            vectors.push(operator_case(&name, operator, left, right));
        }
    }
    vectors
}

/// Variables at both ends and between, and numbers over 31, in sets and beside them.
fn mark_sets() -> Vec<Vector> {
    let sets = [0, 1, HALF, 0x5555_5555, HIGHEST];
    let within = [0, 1, 17, 31].iter().flat_map(|variable| {
        let in_each = sets.iter().map(|levels| (*levels, *variable));
        in_each.collect::<Vec<(u32, u32)>>()
    });
    let over = [32, 33, 63, 255, HIGHEST].map(|variable| (0x5555_5555, variable));
    let asked = within.chain(over);
    let cases = asked.map(|(levels, variable)| {
        let others = [0, 0xF0F0_F0F0, 6, HALF + 1][variable as usize % 4];
        let name = format!("{levels}-variable-{variable}");
        marks_case(&name, levels, variable, others)
    });
    cases.collect()
}
