//! The level check by hand: a walk over the statements, each loop until nothing is added.

use crate::judge::judge;
use buzorinde::{Advice, Checked, Judged};

type Rows<'a> = &'a [[u32; 4]];

fn provisional(rows: Rows, at: u32, marks: u32) -> bool {
    match rows[at as usize] {
        [8, ..] => false,
        [9, variable, _, _] => marks & (1 << (variable % 32)) != 0,
        [_, _, left, right] => provisional(rows, left, marks) || provisional(rows, right, marks),
    }
}

/// The marks after the statement; the lowest failing row goes to `lowest`.
fn walk(rows: Rows, at: u32, context: bool, marks: u32, lowest: &mut Option<u32>) -> u32 {
    match rows[at as usize] {
        [1, variable, expression, _] => {
            let mark = 1 << (variable % 32);
            if context || provisional(rows, expression, marks) {
                marks | mark
            } else {
                marks & !mark
            }
        }
        [2, first, second, _] => {
            let between = walk(rows, first, context, marks, lowest);
            walk(rows, second, context, between, lowest)
        }
        [3, test, then, otherwise] => {
            let context = context || provisional(rows, test, marks);
            walk(rows, then, context, marks, lowest) | walk(rows, otherwise, context, marks, lowest)
        }
        [4, test, body, _] => {
            let mut marks = marks;
            loop {
                let mut found = *lowest;
                let inner = context || provisional(rows, test, marks);
                let more = marks | walk(rows, body, inner, marks, &mut found);
                if more == marks {
                    *lowest = found;
                    return marks;
                }
                marks = more;
            }
        }
        [5, channel, expression, _] => {
            if channel == 0 && (context || provisional(rows, expression, marks)) {
                *lowest = Some(lowest.map_or(at, |row| row.min(at)));
            }
            marks
        }
        _ => marks,
    }
}

pub fn check(table: &[u32], marks: u32) -> Advice {
    if let Judged::Refused { number, row } = judge(table) {
        return Advice {
            checked: Checked::Refused { number, row },
            marks,
        };
    }
    let (rows, _) = table.as_chunks::<4>();
    let mut lowest = None;
    let marks = walk(rows, rows.len() as u32 - 1, false, marks, &mut lowest);
    Advice {
        checked: lowest.map_or(Checked::Pass, Checked::Fail),
        marks,
    }
}
