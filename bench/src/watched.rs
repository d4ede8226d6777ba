//! The run under the monitor by hand: rows are read where they stand, an expression's value and level come back in a pair, and
//! the pending items and the pile are stacks. A branch that is not taken is walked for what it may assign.

use crate::judge::judge;
use crate::operate::operate;
use buzorinde::{Answer, Ended, Judged, VARIABLES};

type Rows<'a> = &'a [[u32; 4]];

/// A close among the pending items, which are row numbers else.
const CLOSE: u32 = u32::MAX;

fn evaluate(rows: Rows, at: u32, memory: &[u32; VARIABLES], marks: u32) -> (u32, u32) {
    match rows[at as usize] {
        [8, value, _, _] => (value, 0),
        [9, variable, _, _] => (
            memory[variable as usize % VARIABLES],
            marks & (1 << (variable % 32)),
        ),
        [_, operator, left, right] => {
            let (a, x) = evaluate(rows, left, memory, marks);
            let (b, y) = evaluate(rows, right, memory, marks);
            (operate(operator, a, b), x | y)
        }
    }
}

fn may_assign(rows: Rows, at: u32) -> u32 {
    match rows[at as usize] {
        [1, variable, _, _] => 1 << (variable % 32),
        [2, first, second, _] => may_assign(rows, first) | may_assign(rows, second),
        [3, _, then, otherwise] => may_assign(rows, then) | may_assign(rows, otherwise),
        [4, _, body, _] => may_assign(rows, body),
        _ => 0,
    }
}

pub fn run(
    table: &[u32],
    memory: &mut [u32; VARIABLES],
    given: u32,
    budget: u32,
    trace: &mut [u32],
) -> Answer {
    let refused = |number, row| Answer {
        ended: Ended::Refused { number, row },
        steps: 0,
        records: 0,
        marks: given,
    };
    if let Judged::Refused { number, row } = judge(table) {
        return refused(number, row);
    }
    if trace.len() > 16384 {
        return refused(6, 0);
    }
    let (rows, _) = table.as_chunks::<4>();
    let mut marks = given;
    let mut pile: Vec<u32> = Vec::with_capacity(8);
    let mut pending: Vec<u32> = Vec::with_capacity(1025);
    let mut steps = 0;
    let mut records = 0;
    pending.push(rows.len() as u32 - 1);
    let ended = loop {
        let Some(&next) = pending.last() else {
            break Ended::Done;
        };
        if steps == budget {
            break Ended::Spent;
        }
        pending.pop();
        if next == CLOSE {
            marks |= pile.pop().unwrap_or(0);
            steps += 1;
            continue;
        }
        let mut at = next;
        while let [2, first, second, _] = rows[at as usize] {
            pending.push(second);
            at = first;
        }
        match rows[at as usize] {
            [1, variable, expression, _] => {
                let (value, level) = evaluate(rows, expression, memory, marks);
                memory[variable as usize % VARIABLES] = value;
                let mark = 1 << (variable % 32);
                marks = if level != 0 || !pile.is_empty() {
                    marks | mark
                } else {
                    marks & !mark
                };
            }
            [3, test, then, otherwise] => {
                let (value, level) = evaluate(rows, test, memory, marks);
                let (taken, other) = if value != 0 {
                    (then, otherwise)
                } else {
                    (otherwise, then)
                };
                pending.push(CLOSE);
                pending.push(taken);
                if level != 0 || !pile.is_empty() {
                    pile.push(may_assign(rows, other));
                }
            }
            [4, test, body, _] => {
                let (value, level) = evaluate(rows, test, memory, marks);
                let provisional = level != 0 || !pile.is_empty();
                if value != 0 {
                    pending.push(at);
                    pending.push(CLOSE);
                    pending.push(body);
                    if provisional {
                        pile.push(0);
                    }
                } else {
                    pending.push(CLOSE);
                    if provisional {
                        pile.push(may_assign(rows, body));
                    }
                }
            }
            [5, channel, expression, _] => {
                let (value, level) = evaluate(rows, expression, memory, marks);
                if channel == 0 && (level != 0 || !pile.is_empty()) {
                    break Ended::Stopped {
                        row: at,
                        because: level,
                    };
                }
                let Some(record) = trace.get_mut(2 * records..2 * records + 2) else {
                    break Ended::NoRoom(at);
                };
                record.copy_from_slice(&[channel, value]);
                records += 1;
            }
            _ => {}
        }
        steps += 1;
    };
    Answer {
        ended,
        steps,
        records: records as u32,
        marks,
    }
}
