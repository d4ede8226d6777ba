//! Texts as pieces, which are words and the spaces between them, and the ways to leave some out.

use std::iter::successors;

/// Of the bytes from `from` to `to` those from `kept` to `kept_to` alone are kept.
#[derive(Clone, Copy)]
pub struct Narrowing {
    from: usize,
    to: usize,
    kept: usize,
    kept_to: usize,
    /// What is put in where bytes are left out, so that words stay apart.
    between: &'static [u8],
}

impl Narrowing {
    fn dropped(from: usize, to: usize, between: &'static [u8]) -> Narrowing {
        Narrowing {
            from,
            to,
            kept: to,
            kept_to: to,
            between,
        }
    }

    pub fn of(&self, text: &[u8]) -> Vec<u8> {
        let kept = &text[self.kept..self.kept_to];
        let mut left = vec![&text[..self.from], kept, &text[self.to..]];
        left.retain(|bytes| !bytes.is_empty());
        left.join(self.between)
    }
}

/// A piece, and where it begins.
type Piece<'a> = (usize, &'a [u8]);

fn pieces(text: &[u8]) -> Vec<Piece<'_>> {
    let letter = u8::is_ascii_alphanumeric;
    let space = |byte: &u8| matches!(byte, b' ' | b'\n');
    let one_piece = |a: &u8, b: &u8| letter(a) && letter(b) || space(a) && space(b);
    let mut begin = 0;
    let pieces = text.chunk_by(one_piece).map(|bytes| {
        let piece = (begin, bytes);
        begin += bytes.len();
        piece
    });
    pieces.collect()
}

fn end((begin, bytes): &Piece) -> usize {
    begin + bytes.len()
}

/// The ways to leave out some of a text, the boldest first.
pub fn narrowings(text: &[u8]) -> Vec<Narrowing> {
    let pieces = pieces(text);
    let mut narrowings = stretches(&pieces, text.len());
    narrowings.extend(compounds(&pieces).iter().flat_map(|own| parts(own)));
    narrowings.extend((0..text.len()).map(|at| Narrowing::dropped(at, at + 1, b"")));
    narrowings
}

/// All pieces, each half of them, each quarter and so on, and then each stretch of few pieces.
fn stretches(pieces: &[Piece], end: usize) -> Vec<Narrowing> {
    /// As many as a short statement has.
    const FEW: usize = 12;
    /// Among more pieces than these, to try every stretch of few would take too long.
    const MANY: usize = 2_000;
    let count = pieces.len();
    let few = if count > MANY { 1 } else { FEW };
    let halves = successors(Some(count), |length| Some(length / 2));
    let halves = halves.take_while(|length| *length > few);
    let halves = halves.flat_map(|length| (0..count).step_by(length).map(move |at| (at, length)));
    let each = (1..=few).rev();
    let each = each.flat_map(|length| (0..count).map(move |at| (at, length)));
    let begin = |piece: usize| pieces.get(piece).map_or(end, |(begin, _)| *begin);
    let dropped = |(at, length)| Narrowing::dropped(begin(at), begin(at + length), b" ");
    halves.chain(each).map(dropped).collect()
}

/// The own words of each statement and expression that has parts, as `if`, `then`, `else`, `end`.
fn compounds<'a>(pieces: &[Piece<'a>]) -> Vec<Vec<Piece<'a>>> {
    let mut open: Vec<Vec<Piece>> = Vec::new();
    let mut compounds = Vec::new();
    for (begin, word) in pieces {
        let last = matches!(*word, b")" | b"end");
        if matches!(*word, b"(" | b"if" | b"while") {
            open.push(Vec::new());
        }
        if let Some(own) = open.last_mut() {
            if own.is_empty() || last || divides(own[0].1, word) {
                own.push((*begin, *word));
            }
        }
        if last {
            compounds.extend(open.pop());
        }
    }
    compounds
}

/// Whether a word stands between two parts of what begins with the first word.
fn divides(first: &[u8], word: &[u8]) -> bool {
    match first {
        b"(" => matches!(word, b"+" | b"-" | b"*" | b"/" | b"=" | b"<"),
        _ => matches!(word, b"then" | b"else" | b"do"),
    }
}

/// Each part in place of the whole, which has these own words.
fn parts<'a>(own: &'a [Piece]) -> impl Iterator<Item = Narrowing> + 'a {
    let (from, to) = (own[0].0, end(&own[own.len() - 1]));
    own.windows(2).map(move |two| Narrowing {
        from,
        to,
        kept: end(&two[0]),
        kept_to: two[1].0,
        between: b" ",
    })
}
