//! The unwatched language by hand: the same steps and room without marks, pile or denial.

use crate::judge::judge;
use crate::operate::operate;
use buzorinde::{Answer, Ended, Judged, VARIABLES};

type Rows<'a> = &'a [[u32; 4]];

/// A close among the pending items, which are row numbers else.
const CLOSE: u32 = u32::MAX;

fn evaluate(rows: Rows, at: u32, memory: &[u32; VARIABLES]) -> u32 {
    match rows[at as usize] {
        [8, value, _, _] => value,
        [9, variable, _, _] => memory[variable as usize % VARIABLES],
        [_, operator, left, right] => operate(
            operator,
            evaluate(rows, left, memory),
            evaluate(rows, right, memory),
        ),
    }
}

pub fn run(
    table: &[u32],
    memory: &mut [u32; VARIABLES],
    given: u32,
    budget: u32,
    trace: &mut [u32],
) -> Answer {
    if let Judged::Refused { number, row } = judge(table) {
        return Answer {
            ended: Ended::Refused { number, row },
            steps: 0,
            records: 0,
            marks: given,
        };
    }
    let (rows, _) = table.as_chunks::<4>();
    let mut pending: Vec<u32> = Vec::with_capacity(1025);
    let mut steps = 0;
    let mut records = 0;
    pending.push(rows.len() as u32 - 1);
    let ended = loop {
        let Some(&next) = pending.last() else {
            break Ended::Done;
        };
        if steps == budget {
            break Ended::Spent;
        }
        pending.pop();
        steps += 1;
        if next == CLOSE {
            continue;
        }
        let mut at = next;
        while let [2, first, second, _] = rows[at as usize] {
            pending.push(second);
            at = first;
        }
        match rows[at as usize] {
            [1, variable, expression, _] => {
                memory[variable as usize % VARIABLES] = evaluate(rows, expression, memory)
            }
            [3, test, then, otherwise] => {
                pending.push(CLOSE);
                pending.push(if evaluate(rows, test, memory) != 0 {
                    then
                } else {
                    otherwise
                });
            }
            [4, test, body, _] => {
                if evaluate(rows, test, memory) != 0 {
                    pending.push(at);
                    pending.push(CLOSE);
                    pending.push(body);
                } else {
                    pending.push(CLOSE);
                }
            }
            [5, channel, expression, _] => {
                let value = evaluate(rows, expression, memory);
                let Some(record) = trace.get_mut(2 * records..2 * records + 2) else {
                    steps -= 1;
                    break Ended::NoRoom(at);
                };
                record.copy_from_slice(&[channel, value]);
                records += 1;
            }
            _ => {}
        }
    };
    Answer {
        ended,
        steps,
        records: records as u32,
        marks: given,
    }
}
