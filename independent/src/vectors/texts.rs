//! Vectors of the reader of texts: what is read, every refusal and their order, limits, bytes.

use super::{text_case, Vector};
use crate::random::Random;
use crate::recipes::*;
use crate::table::ROW_WORDS;
use crate::text::read;
use crate::texts::random_text;
use crate::writing::written;

/// A recipe with every keyword.
const WHOLE: &str = "in v0 provisional ; in v1 settled ; in v2 ; set v3 = ( v0 + 1 ) ; \
    if v1 then skip else settled v3 end ; while ( v2 < 4 ) do provisional 5 ; skip end";

const RANDOM_TEXTS: usize = 60;
/// Longer random texts and tables are left to the comparison.
const MOST_RANDOM: usize = 600;

type Texts = Vec<(String, String)>;

pub fn vectors() -> Vec<Vector> {
    let groups = [
        statements(),
        expressions(),
        recipes_a_to_p(),
        declarations(),
        damaged(),
        faults(),
        numbers_and_variables(),
        words_that_touch(),
        limits(),
        lengths(),
        order(),
    ];
    let texts = groups.into_iter().flatten();
    let mut vectors: Vec<Vector> = texts
        .map(|(name, text)| roomy_case(&name, text.as_bytes()))
        .collect();
    vectors.extend(bytes());
    vectors.extend(lent_tables());
    vectors.extend(random());
    vectors
}

/// The text with a table of a little more than its rows need; of a few words where it is
/// refused.
fn roomy_case(name: &str, text: &[u8]) -> Vector {
    let rows = read(text, &mut [0; 2048]).rows;
    text_case(name, text, if rows == 0 { 8 } else { rows * ROW_WORDS + 2 })
}

fn named<const N: usize>(texts: [(&str, &str); N]) -> Texts {
    let owned = |(name, text): (&str, &str)| (name.to_string(), text.to_string());
    texts.map(owned).into()
}

fn statements() -> Texts {
    named([
        ("skip", "skip"),
        ("set", "set v3 = 7"),
        ("settled", "settled v4"),
        ("provisional", "provisional 5"),
        ("if", "if v1 then set v2 = 3 else skip end"),
        ("while", "while v1 do settled v2 end"),
        ("two-statements", "set v0 = 1; skip"),
        (
            "five-statements",
            "settled 1; settled 2; skip; settled 3; settled 4",
        ),
        (
            "blocks-in-blocks",
            "while v0 do skip; settled 1 end; \
             if 1 then settled 2; skip; skip else skip; settled 3 end; skip",
        ),
        (
            "if-in-both-branches",
            "if 1 then if 2 then skip else settled 3 end else if 4 then settled 5 else skip end end",
        ),
        ("while-in-a-while", "while 1 do while 2 do skip end; skip end"),
        ("spaces-and-line-ends", "\n\n set\nv0  =\n\n1 ;\n skip \n \n"),
    ])
}

fn expressions() -> Texts {
    let signs = [
        ("sum", "+"),
        ("difference", "-"),
        ("product", "*"),
        ("quotient", "/"),
        ("equal", "="),
        ("less", "<"),
    ];
    let operators = signs.map(|(name, sign)| {
        let text = format!("settled (v6 {sign} 9)");
        (format!("operator-{name}"), text)
    });
    let mut texts: Texts = operators.into();
    texts.extend(named([
        ("sides", "set v0 = ((1 - 2) * (v3 / (4 < v5)))"),
        ("equal-in-a-set", "set v0=(v0=(1=1))"),
        (
            "test-of-an-if",
            "if ((v0 + 1) < v1) then skip else skip end",
        ),
        ("test-of-a-while", "while (v0 = (1 - v1)) do skip end"),
    ]));
    texts
}

fn recipes_a_to_p() -> Texts {
    let text = |part| format!("in v0 provisional ; {}", written(&part));
    lettered()
        .map(|(name, part)| (format!("recipe-{name}"), text(part)))
        .into()
}

fn declarations() -> Texts {
    let mut texts = named([
        ("declared-plain", "in v1; skip"),
        ("declared-settled", "in v1 settled; skip"),
        ("declared-provisional", "in v1 provisional; skip"),
        (
            "declared-v0-and-v31",
            "in v31 provisional; in v0 provisional; skip",
        ),
        (
            "declared-in-any-order",
            "in v5 provisional; in v2; in v1 provisional; in v9 settled; settled v2",
        ),
        ("declared-and-an-output", "in v0 provisional; settled v0"),
        ("declared-after-a-statement", "skip; in v0; skip"),
        ("declared-in-a-block", "while 1 do in v0; skip end"),
        ("declared-without-a-block", "in v0;"),
        ("declared-two-levels", "in v0 settled provisional; skip"),
        ("declared-two-variables", "in v0 v1; skip"),
        ("declared-a-number", "in 0; skip"),
        ("again", "in v0; in v0; skip"),
        (
            "again-with-another-level",
            "in v0 settled; in v0 provisional; skip",
        ),
        ("again-v31", "in v31 provisional; in\nv31\n; skip"),
        ("again-three-times", "in v3; in v3; in v3; skip"),
        (
            "again-two-the-later-first",
            "in v7; in v8; in v8; in v7; skip",
        ),
        ("again-two-in-order", "in v7; in v8; in v7; in v8; skip"),
        (
            "again-far-apart",
            "in v1; in v2; in v3; in v4; in v5; in v1; skip",
        ),
        ("again-but-another-number", "in v1; in v11; in v10; skip"),
    ]);
    let every: String = (0..32).map(|v| format!("in v{v} provisional;")).collect();
    texts.push(("declared-all".to_string(), format!("{every}skip")));
    texts.push(("again-after-all".to_string(), format!("{every}in v17;skip")));
    texts
}

/// Every word of the whole recipe: the last one, missing, twice, and a word that no recipe has
/// in its place.
fn damaged() -> Texts {
    let whole: Vec<&str> = WHOLE.split(' ').collect();
    let mut texts = named([("whole", WHOLE)]);
    let mut damage = |name: &str, at: usize, words: Vec<&str>| {
        texts.push((format!("{name}-word-{at:02}"), words.join(" ")));
    };
    for at in 0..whole.len() {
        let (before, after) = (&whole[..at], &whole[at + 1..]);
        damage("cut-before", at, before.to_vec());
        damage("without", at, [before, after].concat());
        damage("twice", at, [before, &[whole[at]; 2], after].concat());
        damage("strange", at, [before, &["x"], after].concat());
    }
    texts
}

fn faults() -> Texts {
    named([
        ("empty", ""),
        ("space", " "),
        ("spaces", " \n\n  \n"),
        ("semicolon", ";"),
        ("semicolon-first", "; skip"),
        ("semicolon-last", "skip;"),
        ("semicolon-last-and-spaces", "skip; \n "),
        ("semicolon-twice", "skip;; skip"),
        ("semicolon-before-end", "while 1 do skip; end"),
        ("semicolon-before-else", "if 1 then skip; else skip end"),
        ("no-semicolon", "skip skip"),
        ("end-too-many", "while 1 do skip end end"),
        ("end-alone", "end"),
        ("no-end-of-a-while", "while 1 do skip"),
        ("no-end-of-an-if", "if 1 then skip else skip"),
        ("no-else", "if 1 then skip end"),
        ("else-in-a-while", "while 1 do skip else skip end"),
        ("else-twice", "if 1 then skip else skip else skip end"),
        ("no-test", "if then skip else skip end"),
        ("do-after-if", "if 1 do skip else skip end"),
        ("then-after-while", "while 1 then skip end"),
        ("empty-branch", "if 1 then else skip end"),
        ("empty-other-branch", "if 1 then skip else end"),
        ("empty-body", "while 1 do end"),
        ("set-a-number", "set 3 = v3"),
        ("set-without-equal", "set v3 3"),
        ("set-without-value", "set v3 = ; skip"),
        ("set-a-keyword", "set skip = 1"),
        ("output-of-nothing", "settled"),
        ("output-of-two", "settled 1 2"),
        ("output-of-an-output", "settled provisional 1"),
        ("expression-alone", "(1 + 1)"),
        ("number-alone", "5"),
        ("variable-alone", "v0"),
        ("brackets-around-a-number", "settled (1)"),
        ("brackets-around-nothing", "settled ()"),
        ("no-brackets", "settled 1 + 1"),
        ("sum-of-three", "settled (1 + 1 + 1)"),
        ("sum-of-one", "settled (+ 1)"),
        ("sum-with-two-operators", "settled (1 + + 1)"),
        ("sum-without-an-operator", "settled (1 1)"),
        ("close-missing", "settled (1 + 1; skip"),
        ("close-missing-at-the-end", "settled ((1 + 1) < 2"),
        ("close-too-many", "settled (1 + 1))"),
        ("less-or-equal", "settled (1 <= 1)"),
        ("greater", "settled (1 > 1)"),
        ("negative", "settled -1"),
        ("two-faults", "skip; x; y; settled 007"),
        ("a-comment", "skip # done"),
    ])
}

fn numbers_and_variables() -> Texts {
    let numbers = [
        "0",
        "10",
        "4294967295",
        "4294967296",
        "4294967300",
        "10000000000",
        "18446744073709551615",
        "18446744073709551617",
        "00",
        "01",
        "007",
        "04294967295",
        "1a",
        "0x1",
        "1e3",
    ];
    let variables = [
        "v0",
        "v9",
        "v31",
        "v32",
        "v40",
        "v100",
        "v310",
        "v00",
        "v01",
        "v031",
        "v",
        "vv",
        "v1v",
        "v4294967296",
        "v4294967297",
        "x0",
    ];
    let told = |word: &str| (format!("output-of-{word}"), format!("settled {word};skip"));
    let mut texts: Texts = numbers.into_iter().chain(variables).map(told).collect();
    for word in ["v31", "v32", "v03", "v"] {
        texts.push((format!("set-{word}"), format!("set {word}=1")));
        texts.push((format!("in-{word}"), format!("in {word};skip")));
    }
    texts.extend(named([
        ("output-of-large-v0", "settled V0"),
        ("output-of-v-1", "settled v 1"),
    ]));
    texts
}

fn words_that_touch() -> Texts {
    named([
        (
            "touching",
            "if(1<2)then skip else set v0=(v1=3)end;settled 4",
        ),
        ("touching-settled-1", "settled1"),
        ("touching-settled-v0", "settledv0"),
        ("touching-set-v0", "setv0=1"),
        ("touching-skip-skip", "skipskip"),
        ("touching-if-0", "if0 then skip else skip end"),
        ("touching-0-then", "if 0then skip else skip end"),
        ("touching-v0-end", "while 1 do settled v0end"),
        ("touching-in-v0", "inv0;skip"),
        ("touching-v0-settled", "in v0settled;skip"),
        ("touching-set-and-bracket", "set v0=(1+2)settled 1"),
        ("large-letters", "SKIP"),
        ("a-large-letter", "If 1 then skip else skip end"),
        ("a-large-letter-later", "while 1 do skip eNd"),
        ("part-of-a-word", "ski"),
        ("more-than-a-word", "skipp"),
        ("a-word-in-two", "sk ip"),
        ("a-number-in-two", "settled 1 0"),
        ("a-word-in-two-by-a-line-end", "settled v\n1"),
    ])
}

/// "over 512 rows"; "01's 5 (height, nesting, loop nesting, as the judge gives it for the
/// table)"
fn limits() -> Texts {
    let told = |part| output(0, part);
    let both = |one, other| sequence(one, other);
    let parts = [
        ("511-rows", of_rows(511)),
        ("512-rows", of_rows(512)),
        ("513-rows", of_rows(513)),
        ("514-rows", of_rows(514)),
        ("height-16-left", told(tall_left(16))),
        ("height-17-left", told(tall_left(17))),
        ("height-18-left", told(tall_left(18))),
        ("height-16-right", told(tall_right(16))),
        ("height-17-right", told(tall_right(17))),
        ("height-17-in-a-test", while_do(tall_right(17), skip())),
        ("height-17-in-a-set", assign(3, tall_left(17))),
        ("nesting-8-then", nested_then(8, skip())),
        ("nesting-9-then", nested_then(9, skip())),
        ("nesting-8-else", nested_else(8, skip())),
        ("nesting-9-else", nested_else(9, skip())),
        (
            "nesting-8-with-3-whiles",
            nested_then(5, nested_while(3, skip())),
        ),
        (
            "nesting-9-with-3-whiles",
            nested_while(3, nested_else(6, skip())),
        ),
        ("loop-nesting-3", nested_while(3, skip())),
        ("loop-nesting-4", nested_while(4, skip())),
        (
            "loop-nesting-4-with-an-if",
            nested_while(2, nested_then(1, nested_while(2, skip()))),
        ),
        (
            "loops-then-height",
            both(nested_while(4, skip()), told(tall_left(17))),
        ),
        (
            "height-then-loops",
            both(told(tall_left(17)), nested_while(4, skip())),
        ),
        (
            "nesting-8-twice",
            both(nested_then(8, skip()), nested_else(8, skip())),
        ),
    ];
    let mut texts: Texts = parts
        .map(|(name, part)| (format!("k-{name}"), written(&part)))
        .into();
    texts.push((
        "k-loop-nesting-4-declared".to_string(),
        format!("in v0 provisional; {}", written(&nested_while(4, skip()))),
    ));
    texts
}

/// The text with spaces after it, this many bytes in all.
fn padded(text: &str, bytes: usize) -> String {
    format!("{text:bytes$}")
}

/// A sum in a sum and so on: a whole recipe, so many sums deep.
fn sums(deep: usize) -> String {
    format!("settled {}1{}", "(".repeat(deep), "+1)".repeat(deep))
}

fn nested_ifs(deep: usize) -> String {
    let (before, after) = ("if 0 then ", " else skip end");
    format!("{}skip{}", before.repeat(deep), after.repeat(deep))
}

fn lengths() -> Texts {
    let spaces = " ".repeat(16_380);
    let texts = [
        ("16384-bytes-spaces-last", padded("skip", 16_384)),
        ("16385-bytes-spaces-last", padded("skip", 16_385)),
        ("16384-bytes-spaces-first", format!("{spaces}skip")),
        ("16384-bytes-of-spaces", padded("", 16_384)),
        ("16384-bytes-open", "(".repeat(16_384)),
        (
            "16384-bytes-settled-open",
            format!("settled {}", "(".repeat(16_376)),
        ),
        (
            "16384-bytes-ifs",
            "if 1 then ".repeat(1_639)[..16_384].to_string(),
        ),
        ("16384-bytes-nested-ifs", padded(&nested_ifs(682), 16_384)),
        ("16384-bytes-nested-sums", padded(&sums(4_093), 16_384)),
        (
            "16384-bytes-one-number",
            format!("settled {}", "1".repeat(16_376)),
        ),
        (
            "16384-bytes-semicolons",
            format!("skip{}", ";".repeat(16_380)),
        ),
        ("20000-bytes", padded("skip", 20_000)),
    ];
    let owned = |(name, text): (&str, String)| (name.to_string(), text);
    texts.map(owned).into()
}

/// Each pair of refusals that can apply to one text; 13 is with the lent tables.
fn order() -> Texts {
    let long = |text: &str| padded(text, 16_385);
    let again = "in v0; in v1; in v1; in v0;";
    let many = written(&of_rows(513));
    let deep = written(&nested_while(4, skip()));
    let texts = [
        ("9-before-10", long("skip end")),
        ("9-before-11", long(&format!("{again} skip"))),
        ("9-before-12", long(&many)),
        ("9-before-5", long(&deep)),
        ("10-before-11", format!("{again} skip end")),
        ("10-before-11-at-the-end", format!("{again} skip; ")),
        ("10-before-11-without-a-block", again.to_string()),
        (
            "10-before-11-in-the-declaration",
            "in v0; in v0".to_string(),
        ),
        ("10-before-12", format!("{many} end")),
        ("10-before-12-at-the-end", format!("{many};")),
        ("10-before-5", format!("{deep} end")),
        ("10-before-5-at-the-end", format!("{deep};")),
        ("11-before-12", format!("{again} {many}")),
        ("11-before-5", format!("{again} {deep}")),
        ("12-before-5", format!("{deep}; {many}")),
        ("12-before-5-later", format!("{many}; {deep}")),
    ];
    let owned = |(name, text): (&str, String)| (format!("order-{name}"), text);
    texts.map(owned).into()
}

/// Bytes on both sides of each range of letters and digits, and what might be taken for a space.
fn bytes() -> Vec<Vector> {
    let bytes = [
        0, 1, 9, 10, 11, 12, 13, 27, 31, 32, 33, 34, 35, 39, 44, 46, 47, 48, 57, 58, 59, 60, 61,
        62, 64, 65, 90, 91, 92, 95, 96, 97, 122, 123, 126, 127, 128, 133, 160, 194, 255,
    ];
    let single = bytes.map(|byte: u8| {
        let text = [b"skip;", &[byte][..], b"skip"].concat();
        roomy_case(&format!("byte-{byte:03}"), &text)
    });
    let texts: [(&str, &[u8]); 8] = [
        ("carriage-returns", b"skip;\r\nskip\r\n"),
        ("tab-first", b"\tskip"),
        ("nul-last", b"skip\0"),
        ("nul-first", b"\0"),
        ("byte-order-mark", b"\xef\xbb\xbfskip"),
        ("letter-of-two-bytes", b"settled v\xc3\xa9"),
        ("no-break-space", b"settled\xc2\xa01"),
        ("bytes-over-127", b"skip;\x80\x81\xfe\xff"),
    ];
    let texts = texts.map(|(name, text)| roomy_case(name, text));
    single.into_iter().chain(texts).collect()
}

/// Tables just long enough, too short by a word, by all, and longer; and 13 after the others.
fn lent_tables() -> Vec<Vector> {
    let mut vectors = Vec::new();
    for lent in [0, 1, 4, 12, 15, 16, 17, 19, 20, 40] {
        let name = format!("lent-{lent}-of-16");
        vectors.push(text_case(&name, b"set v0 = 1; skip", lent));
    }
    let rows = written(&of_rows(512));
    for lent in [2047, 2048, 2049] {
        let name = format!("lent-{lent}-of-2048");
        vectors.push(text_case(&name, rows.as_bytes(), lent));
    }
    let deep = written(&nested_while(4, skip()));
    let many = written(&of_rows(513));
    let refused = [
        ("9-before-13", padded("skip", 16_385), 3),
        ("10-before-13", "skip end".to_string(), 0),
        ("11-before-13", "in v0; in v0; skip".to_string(), 3),
        ("12-before-13", many.clone(), 2051),
        ("5-before-13", deep.clone(), 35),
        ("5-before-13-without-a-word", deep.clone(), 0),
        ("10-in-a-long-table", format!("{deep} end"), 60),
        (
            "11-in-a-long-table",
            "in v0; in v0; skip; settled v0".to_string(),
            60,
        ),
        ("12-in-a-long-table", many, 2060),
        ("5-in-a-long-table", deep, 60),
    ];
    for (name, text, lent) in refused {
        vectors.push(text_case(&format!("order-{name}"), text.as_bytes(), lent));
    }
    vectors
}

fn random() -> Vec<Vector> {
    let asked = (1..).map(|seed| random_text(&mut Random::new(seed)));
    let short = asked.filter(|asked| asked.text.len().max(asked.lent) <= MOST_RANDOM);
    let cases = short.take(RANDOM_TEXTS).enumerate().map(|(at, asked)| {
        let name = format!("random-{:02}", at + 1);
        text_case(&name, &asked.text, asked.lent)
    });
    cases.collect()
}
