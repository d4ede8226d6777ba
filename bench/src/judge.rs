//! The judge by hand: one pass over the rows for what a row says by itself and for depths, then the parents.

use buzorinde::Judged;

#[derive(Clone, Copy, Default)]
struct Depth {
    height: u8,
    nesting: u8,
    loops: u8,
    statement: bool,
}

const MOST_ROWS: usize = 512;

/// The lowest refusal from 1 to 5 that applies anywhere, with its lowest row.
pub fn judge(table: &[u32]) -> Judged {
    let rows = table.len() / 4;
    if table.len() % 4 != 0 || rows == 0 || rows > MOST_ROWS {
        return Judged::Refused { number: 1, row: 0 };
    }
    let (rows, _) = table.as_chunks::<4>();
    let mut depths = [Depth::default(); MOST_ROWS];
    let mut parents = [0u16; MOST_ROWS];
    let mut children = None;
    let mut deep = None;
    for (i, row) in rows.iter().enumerate() {
        if wrong_words(row) {
            return Judged::Refused {
                number: 2,
                row: i as u32,
            };
        }
        if children.is_some() {
            continue;
        }
        match depth_of(row, i, &depths, &mut parents) {
            None => children = Some(i as u32),
            Some(depth) => {
                if deep.is_none() && (depth.height > 16 || depth.nesting > 8 || depth.loops > 3) {
                    deep = Some(i as u32);
                }
                depths[i] = depth;
            }
        }
    }
    if let Some(row) = children {
        return Judged::Refused { number: 3, row };
    }
    let last = rows.len() - 1;
    if let Some(i) = parents[..last].iter().position(|&places| places != 1) {
        return Judged::Refused {
            number: 4,
            row: i as u32,
        };
    }
    if !depths[last].statement {
        return Judged::Refused {
            number: 4,
            row: last as u32,
        };
    }
    match deep {
        Some(row) => Judged::Refused { number: 5, row },
        None => Judged::Accepted,
    }
}

fn wrong_words(row: &[u32; 4]) -> bool {
    match *row {
        [0, p, q, r] => p != 0 || q != 0 || r != 0,
        [1, p, _, r] => p > 31 || r != 0,
        [2, _, _, r] => r != 0,
        [3, ..] => false,
        [4, _, _, r] => r != 0,
        [5, p, _, r] => p > 1 || r != 0,
        [8, _, q, r] => q != 0 || r != 0,
        [9, p, q, r] => p > 31 || q != 0 || r != 0,
        [10, p, _, _] => p > 5,
        _ => true,
    }
}

/// The row's depth from those of its children, which it counts; nothing where a child is not below or of the wrong sort.
fn depth_of(
    row: &[u32; 4],
    i: usize,
    depths: &[Depth; MOST_ROWS],
    parents: &mut [u16; MOST_ROWS],
) -> Option<Depth> {
    let mut child = |word: u32, statement: bool| {
        let at = word as usize;
        if at >= i || depths[at].statement != statement {
            return None;
        }
        parents[at] += 1;
        Some(depths[at])
    };
    let statement = |nesting, loops| {
        Some(Depth {
            height: 0,
            nesting,
            loops,
            statement: true,
        })
    };
    let expression = |height| {
        Some(Depth {
            height,
            nesting: 0,
            loops: 0,
            statement: false,
        })
    };
    match *row {
        [0, ..] => statement(0, 0),
        [1 | 5, _, q, _] => {
            child(q, false)?;
            statement(0, 0)
        }
        [2, p, q, _] => {
            let (first, second) = (child(p, true)?, child(q, true)?);
            statement(
                first.nesting.max(second.nesting),
                first.loops.max(second.loops),
            )
        }
        [3, p, q, r] => {
            child(p, false)?;
            let (then, otherwise) = (child(q, true)?, child(r, true)?);
            statement(
                then.nesting.max(otherwise.nesting).saturating_add(1),
                then.loops.max(otherwise.loops),
            )
        }
        [4, p, q, _] => {
            child(p, false)?;
            let body = child(q, true)?;
            statement(body.nesting.saturating_add(1), body.loops.saturating_add(1))
        }
        [10, _, q, r] => {
            let (left, right) = (child(q, false)?, child(r, false)?);
            expression(left.height.max(right.height).saturating_add(1))
        }
        _ => expression(1),
    }
}
