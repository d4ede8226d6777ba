//! The texts that are read.

use buzorinde::MOST_TEXT_BYTES;

/// A text, and how often it is read in one measurement.
pub struct Text {
    pub name: &'static str,
    pub bytes: Vec<u8>,
    pub times: u32,
}

/// As many assignments of a sum as 512 rows hold, five rows each, and one of three rows.
const SUMS: u32 = 102;

fn assignments() -> String {
    let mut statements: Vec<String> = (0..SUMS)
        .map(|i| format!("set v{} = (v{} + {})", i % 32, (i + 1) % 32, i * 1000))
        .collect();
    statements.push("set v31 = 7".to_string());
    statements.join("; ")
}

/// The words of a text in so many bytes: each on a line of its own, with spaces before it as room is left.
fn laid_out(text: &str, bytes: usize) -> String {
    let text = text
        .replace(';', " ;")
        .replace('(', "( ")
        .replace(')', " )");
    let words: Vec<&str> = text.split(' ').collect();
    let room = bytes - words.iter().map(|word| word.len() + 1).sum::<usize>();
    let mut lines = String::new();
    for (i, word) in words.iter().enumerate() {
        let indent = room * (i + 1) / words.len() - room * i / words.len();
        lines.extend(std::iter::repeat_n(' ', indent));
        lines.push_str(word);
        lines.push('\n');
    }
    lines
}

/// Three loops and five ifs in each other, twelve times, and an expression of the greatest height: 512 rows.
fn nested() -> String {
    let nest = format!(
        "{}{}set v1 = 3{}{}",
        "while (v0 < 1000) do ".repeat(3),
        "if (v0 = v2) then ".repeat(5),
        " else skip end".repeat(5),
        " end".repeat(3)
    );
    let tall = format!("{}v0{}", "(".repeat(15), " * v3)".repeat(15));
    format!("{}set v2 = {tall}", format!("{nest}; ").repeat(12))
}

/// Every variable is declared, and is assigned the longest number: 512 rows.
fn declared() -> String {
    let declarations: String = (0..32).map(|i| format!("in v{i} provisional; ")).collect();
    let statements: Vec<String> = (0..171)
        .map(|i| format!("set v{} = 4294967295", i % 32))
        .collect();
    declarations + &statements.join("; ")
}

/// The texts that are read by both sides, all accepted.
pub fn accepted() -> Vec<Text> {
    let long = |name, text: String| Text {
        name,
        bytes: text.into_bytes(),
        times: 20,
    };
    vec![
        long("read 512 rows of assignments", assignments()),
        long(
            "read the same in 16,384 bytes",
            laid_out(&assignments(), MOST_TEXT_BYTES),
        ),
        long("read ifs and whiles, nested", nested()),
        long("read 32 declarations, long numbers", declared()),
        Text {
            name: "read 5 rows",
            bytes: b"in v1 provisional; settled v0; provisional v1".to_vec(),
            times: 1000,
        },
    ]
}

/// What stands first, then a piece as often as it is whole within so many bytes, and spaces up to these.
fn repeated(first: &str, piece: &str, bytes: usize) -> Vec<u8> {
    let mut text = first.as_bytes().to_vec();
    text.extend_from_slice(piece.repeat((bytes - first.len()) / piece.len()).as_bytes());
    text.resize(bytes, b' ');
    text
}

/// As many sums as a line of 200 bytes for each leaves room for, in so many bytes.
fn indented(bytes: usize) -> Vec<u8> {
    let sums: Vec<String> = (0..bytes / 200)
        .map(|i| format!("set v{} = (v1 + {i})", i % 32))
        .collect();
    laid_out(&sums.join("; "), bytes).into_bytes()
}

/// Makes a text of so many bytes.
type OfLength = fn(usize) -> Vec<u8>;

/// Texts whose lengths grow, of each sort.
pub fn longer() -> Vec<Text> {
    let sorts: [(&'static str, OfLength); 5] = [
        ("read indented lines", indented),
        ("read `(` again and again", |n| repeated("settled ", "(", n)),
        ("read `if 1 then` again and again", |n| {
            repeated("", "if 1 then ", n)
        }),
        ("read `skip;` again and again", |n| {
            repeated("skip", ";skip", n)
        }),
        ("read spaces", |n| repeated("", " ", n)),
    ];
    let lengths = [1024, 2048, 4096, 8192, MOST_TEXT_BYTES];
    let text = |name, bytes| Text {
        name,
        bytes,
        times: 20,
    };
    sorts
        .iter()
        .flat_map(|&(name, of)| lengths.map(|length| text(name, of(length))))
        .collect()
}
