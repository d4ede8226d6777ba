//! The reader of recipe texts: values that follow from the request's sentences, by hand.

use independent::recipes::{
    all, assign, binary, constant, if_else, lay, output, skip, variable, while_do, Part,
};
use independent::text::{read, Reading};

/// What a word of a lent table holds before the text is read.
const OLD: u32 = 77_777;

/// The answer, and the table after it, which has so many words.
fn read_into(text: &[u8], lent: usize) -> (Reading, Vec<u32>) {
    let mut table = vec![OLD; lent];
    let reading = read(text, &mut table);
    (reading, table)
}

/// The rows and the marks of an accepted text: the rest of the answer is what every accepted
/// text has.
fn accepted(text: &str) -> (Vec<[u32; 4]>, u32) {
    let (reading, table) = read_into(text.as_bytes(), 4000);
    let end = Reading {
        refused: 0,
        at: 0,
        start: text.len(),
        length: 0,
        ..reading
    };
    assert_eq!(reading, end, "{text}");
    let (rows, kept) = table.split_at(reading.rows * 4);
    assert!(kept.iter().all(|word| *word == OLD), "{text}");
    let rows = rows.chunks(4).map(|row| [row[0], row[1], row[2], row[3]]);
    (rows.collect(), reading.marks)
}

fn rows(text: &str) -> Vec<[u32; 4]> {
    let (rows, marks) = accepted(text);
    assert_eq!(marks, 0, "{text}");
    rows
}

fn marks(text: &str) -> u32 {
    accepted(text).1
}

/// Number, row, and the part handed back, of a refused text; the table stays as it is.
fn refused(text: &[u8], lent: usize) -> (u32, u32, usize, usize) {
    let (reading, table) = read_into(text, lent);
    assert_ne!(reading.refused, 0, "{:?}", String::from_utf8_lossy(text));
    assert_eq!((reading.rows, reading.marks), (0, 0));
    assert!(table.iter().all(|word| *word == OLD));
    (reading.refused, reading.at, reading.start, reading.length)
}

/// A refusal whose part is the empty one at the end.
fn refused_at_end(text: &str, number: u32, at: u32) {
    let end = (number, at, text.len(), 0);
    assert_eq!(refused(text.as_bytes(), 4000), end, "{text}");
}

/// 10 at the word between the two `|`; `|` stands in no text itself.
fn faulty(marked: &str) {
    faulty_with(10, marked);
}

fn faulty_with(number: u32, marked: &str) {
    let parts: Vec<&str> = marked.split('|').collect();
    let [before, word, after] = parts[..] else {
        panic!("two marks in {marked}")
    };
    let text = format!("{before}{word}{after}");
    let told = (number, 0, before.len(), word.len());
    assert_eq!(refused(text.as_bytes(), 4000), told, "{marked}");
}

/// 10 at the end.
fn unfinished(text: &str) {
    refused_at_end(text, 10, 0);
}

#[test]
fn statements() {
    assert_eq!(rows("skip"), [[0, 0, 0, 0]]);
    assert_eq!(rows("set v3 = 7"), [[8, 7, 0, 0], [1, 3, 0, 0]]);
    assert_eq!(rows("settled v4"), [[9, 4, 0, 0], [5, 0, 0, 0]]);
    assert_eq!(rows("provisional 5"), [[8, 5, 0, 0], [5, 1, 0, 0]]);
    assert_eq!(
        rows("if v1 then skip else set v2 = 3 end"),
        [
            [9, 1, 0, 0],
            [0, 0, 0, 0],
            [8, 3, 0, 0],
            [1, 2, 2, 0],
            [3, 0, 1, 3]
        ]
    );
    assert_eq!(
        rows("while v1 do skip end"),
        [[9, 1, 0, 0], [0, 0, 0, 0], [4, 0, 1, 0]]
    );
}

#[test]
fn expressions() {
    for (number, sign) in ["+", "-", "*", "/", "=", "<"].iter().enumerate() {
        let text = format!("settled (v6 {sign} 9)");
        let binary = [10, number as u32, 0, 1];
        let expected = [[9, 6, 0, 0], [8, 9, 0, 0], binary, [5, 0, 2, 0]];
        assert_eq!(rows(&text), expected, "{text}");
    }
    // Rows 0 and 1 make 2, rows 3 and 4 make 5, and these two make 6.
    assert_eq!(
        rows("set v0 = ((1 - 2) * (3 / 4))"),
        [
            [8, 1, 0, 0],
            [8, 2, 0, 0],
            [10, 1, 0, 1],
            [8, 3, 0, 0],
            [8, 4, 0, 0],
            [10, 3, 3, 4],
            [10, 2, 2, 5],
            [1, 0, 6, 0]
        ]
    );
    assert_eq!(
        rows("set v31=(v31=4294967295)"),
        [
            [9, 31, 0, 0],
            [8, 4294967295, 0, 0],
            [10, 4, 0, 1],
            [1, 31, 2, 0]
        ]
    );
}

/// "a block's sequence rows come after its statements, grouped to the right"
#[test]
fn blocks() {
    assert_eq!(
        rows("skip; skip"),
        [[0, 0, 0, 0], [0, 0, 0, 0], [2, 0, 1, 0]]
    );
    assert_eq!(
        rows("settled 1; settled 2; settled 3; settled 4"),
        [
            [8, 1, 0, 0],
            [5, 0, 0, 0],
            [8, 2, 0, 0],
            [5, 0, 2, 0],
            [8, 3, 0, 0],
            [5, 0, 4, 0],
            [8, 4, 0, 0],
            [5, 0, 6, 0],
            [2, 5, 7, 0],
            [2, 3, 8, 0],
            [2, 1, 9, 0]
        ]
    );
    assert_eq!(
        rows("while v0 do skip; skip end; if 1 then skip; skip else skip; skip end"),
        [
            [9, 0, 0, 0],
            [0, 0, 0, 0],
            [0, 0, 0, 0],
            [2, 1, 2, 0],
            [4, 0, 3, 0],
            [8, 1, 0, 0],
            [0, 0, 0, 0],
            [0, 0, 0, 0],
            [2, 6, 7, 0],
            [0, 0, 0, 0],
            [0, 0, 0, 0],
            [2, 9, 10, 0],
            [3, 5, 8, 11],
            [2, 4, 12, 0]
        ]
    );
}

/// Recipe A with a loop in it: the rows are those of its tree.
#[test]
fn a_whole_recipe() {
    let text = "in v0 provisional;\n\
        set v2 = 1; set v1 = 0;\n\
        if v0 then set v1 = 1 else skip end;\n\
        if (v1 = 0) then set v2 = 0 else skip end;\n\
        while (v2 < 3) do set v2 = (v2 + 1) end;\n\
        settled v2\n";
    let one = |variable: u32, value: u32| assign(variable, constant(value));
    let raised = assign(2, binary(0, variable(2), constant(1)));
    let part: Part = all([
        one(2, 1),
        one(1, 0),
        if_else(variable(0), one(1, 1), skip()),
        if_else(binary(4, variable(1), constant(0)), one(2, 0), skip()),
        while_do(binary(5, variable(2), constant(3)), raised),
        output(0, variable(2)),
    ]);
    let (rows, marks) = accepted(text);
    assert_eq!((rows.concat(), marks), (lay(&part), 1));
}

#[test]
fn declarations() {
    assert_eq!(marks("in v0; skip"), 0);
    assert_eq!(marks("in v0 settled; skip"), 0);
    assert_eq!(marks("in v0 provisional; skip"), 1);
    assert_eq!(marks("in v31 provisional; skip"), 0x8000_0000);
    assert_eq!(
        marks("in v5 provisional; in v2; in v1 provisional; in v9 settled; settled v2"),
        0b10_0010
    );
    // A declaration makes no row, and a variable may be read and set without one.
    let (declared, _) = accepted("in v5 provisional; settled v7");
    assert_eq!(declared, rows("settled v7"));
    let every: String = (0..32).map(|v| format!("in v{v} provisional;")).collect();
    assert_eq!(marks(&(every + "skip")), u32::MAX);
    // After the declarations these words begin an output.
    assert_eq!(rows("in v0; settled v0"), [[9, 0, 0, 0], [5, 0, 0, 0]]);
    assert_eq!(
        accepted("in v0 provisional; provisional v0"),
        (vec![[9, 0, 0, 0], [5, 1, 0, 0]], 1)
    );
}

#[test]
fn faulty_declarations() {
    faulty("in |5|; skip");
    faulty("in |skip|");
    faulty("in v0 |skip|");
    faulty("in v0 |provisionally|; skip");
    faulty("in v0 settled |settled|; skip");
    faulty("in v0 settled |provisional|; skip");
    faulty("in v0 |,| v1; skip");
    faulty("in v0 |in| v1; skip");
    faulty("in v0; |;| skip");
    faulty("|;| skip");
    faulty("|v0|; skip");
    faulty("skip; |in| v0; skip");
    faulty("skip; |in| v0");
    faulty("while 1 do |in| v0; skip end");
    for text in ["in", "in v0", "in v0 settled", "in v0;", "in v0; in"] {
        unfinished(text);
    }
}

#[test]
fn faulty_statements() {
    faulty("skip |skip|");
    faulty("skip; |;|");
    faulty("skip; |end|");
    faulty("skip |end|");
    faulty("skip |)|");
    faulty("skip |else| skip");
    faulty("|end|");
    faulty("|5|");
    faulty("|(|1 + 1)");
    faulty("set |3| = v3");
    faulty("set v3 |3|");
    faulty("set v3 = |=| 3");
    faulty("set v3 |;| skip");
    faulty("set |skip| = 1");
    faulty("settled |skip|");
    faulty("settled |settled| 1");
    faulty("settled 1 |2|");
    faulty("if |then| skip else skip end");
    faulty("if 1 |do| skip else skip end");
    faulty("if 1 then |else| skip end");
    faulty("if 1 then skip; |else| skip end");
    faulty("if 1 then skip |end|");
    faulty("if 1 then skip else |end|");
    faulty("if 1 then skip else skip |else| skip end");
    faulty("if 1 then skip else skip end |end|");
    faulty("while 1 |then| skip end");
    faulty("while 1 do |end|");
    faulty("while 1 do skip |else| skip end");
    faulty("while 1 do skip end |skip|");
    for text in [
        "",
        " ",
        " \n \n",
        "skip;",
        "skip; ",
        "set",
        "set v1",
        "set v1 =",
        "settled",
        "provisional",
        "if",
        "if 1",
        "if 1 then",
        "if 1 then skip",
        "if 1 then skip;",
        "if 1 then skip else",
        "if 1 then skip else skip",
        "while",
        "while 1",
        "while 1 do",
        "while 1 do skip",
        "while 1 do skip\n\n",
    ] {
        unfinished(text);
    }
}

#[test]
fn faulty_expressions() {
    faulty("settled |)|");
    faulty("settled |+| 1");
    faulty("settled |-|1");
    faulty("settled 1 |+| 1");
    faulty("settled (|)|");
    faulty("settled (1|)|");
    faulty("settled (1 |1| 1)");
    faulty("settled (1 + |+| 1)");
    faulty("settled (1 + |)|");
    faulty("settled (1 + 1 |+| 1)");
    faulty("settled (1 + 1 |;| skip");
    faulty("settled (1 + 1)|)|");
    faulty("settled ((1 + 1)|)|");
    faulty("settled (1 |>| 1)");
    faulty("settled (1 |%| 1)");
    faulty("settled (1 <|=| 1)");
    faulty("settled (1 =|=| 1)");
    faulty("settled (1 |and| 1)");
    for text in [
        "settled (",
        "settled (1",
        "settled (1 +",
        "settled (1 + 1",
        "settled ((1 + 1)",
        "settled ((1 + 1) + (",
    ] {
        unfinished(text);
    }
}

#[test]
fn numbers() {
    assert_eq!(rows("settled 0")[0], [8, 0, 0, 0]);
    assert_eq!(rows("settled 10")[0], [8, 10, 0, 0]);
    assert_eq!(rows("settled 4294967295")[0], [8, 4294967295, 0, 0]);
    faulty("settled |4294967296|");
    faulty("settled |10000000000|");
    faulty("settled |18446744073709551616|");
    faulty("settled |00|");
    faulty("settled |007|");
    faulty("settled |04294967295|");
    faulty("settled |0x1|");
    faulty("settled |1e3|");
    faulty("settled 1|_|000");
}

#[test]
fn variables() {
    assert_eq!(rows("settled v0")[0], [9, 0, 0, 0]);
    assert_eq!(rows("settled v31")[0], [9, 31, 0, 0]);
    for no in [
        "v32",
        "v33",
        "v99",
        "v310",
        "v03",
        "v00",
        "v031",
        "v",
        "vv",
        "V0",
        "v0v",
        "v1a",
        "v4294967296",
        "v18446744073709551616",
        "x0",
        "va",
    ] {
        faulty(&format!("settled |{no}|"));
        faulty(&format!("set |{no}| = 1"));
        faulty(&format!("in |{no}|; skip"));
    }
    faulty("settled |v| 1");
    faulty("settled |v|-1");
}

/// "A word is the longest run of ASCII letters and digits, else one byte"
#[test]
fn words_that_touch() {
    let plain = rows("if (1 < 2) then skip else set v0 = (v1 = 3) end; settled 4");
    let close = "if(1<2)then skip else set v0=(v1=3)end;settled 4";
    assert_eq!(rows(close), plain);
    let wide = "\n if\n( 1  < 2\n)then skip\n\nelse set v0 =(v1= 3 )end ;settled\n4 \n ";
    assert_eq!(rows(wide), plain);
    faulty("|settled1|");
    faulty("|settledv0|");
    faulty("settled |1settled|");
    faulty("|skipskip|");
    faulty("skip;|skip0|");
    faulty("|setv0|=1");
    faulty("set |v0v|=1");
    faulty("|if0| then skip else skip end");
    faulty("if |0then| skip else skip end");
    faulty("if 0 then |skipelse| skip end");
    faulty("in |v0settled|; skip");
    faulty("|inv0|; skip");
    faulty("settled |4294967295a|");
}

#[test]
fn letters_count_as_they_are() {
    for no in ["Skip", "SKIP", "skiP", "skipp", "ski", "s", "kip"] {
        faulty(&format!("|{no}|"));
    }
    faulty("|If| 1 then skip else skip end");
    faulty("while 1 |DO| skip end");
    faulty("in v0 |Provisional|; skip");
}

/// The bytes that stand alone as words are no spaces, whatever they are elsewhere.
#[test]
fn other_bytes() {
    for byte in 0..=255u8 {
        let text = [b"skip;", &[byte][..], b" skip"].concat();
        match byte {
            b' ' | b'\n' => assert_eq!(read_into(&text, 12).0.rows, 3),
            _ => assert_eq!(refused(&text, 12), (10, 0, 5, 1), "{byte}"),
        }
        let text = [b"skip;", &[byte][..], b"skip"].concat();
        match byte {
            b' ' | b'\n' => assert_eq!(read_into(&text, 12).0.rows, 3),
            b'0'..=b'9' | b'A'..=b'Z' | b'a'..=b'z' => {
                assert_eq!(refused(&text, 12), (10, 0, 5, 5), "{byte}")
            }
            _ => assert_eq!(refused(&text, 12), (10, 0, 5, 1), "{byte}"),
        }
    }
    assert_eq!(refused(b"skip\r\n", 4), (10, 0, 4, 1));
    assert_eq!(refused(b"\tskip", 4), (10, 0, 0, 1));
    assert_eq!(refused(b"skip\0", 4), (10, 0, 4, 1));
    // A letter of more than one byte is as many words.
    assert_eq!(refused("set é = 1".as_bytes(), 8), (10, 0, 4, 1));
    assert_eq!(refused("\u{feff}skip".as_bytes(), 4), (10, 0, 0, 1));
    assert_eq!(refused("settled v１".as_bytes(), 8), (10, 0, 8, 1));
}

/// "at the first word": a fault further on does not count.
#[test]
fn the_first_fault() {
    faulty("skip; |x|; y; settled 007");
    faulty("settled |007| 007");
    faulty("set v1 = (1 + |x|");
    // Words that are the beginning of some recipe have their fault at the end.
    unfinished("if 1 then skip else skip;");
    faulty("if 1 then skip else skip; |end|");
}

#[test]
fn declared_again() {
    faulty_with(11, "in v0; in |v0|; skip");
    faulty_with(11, "in v0 settled; in |v0| provisional; skip");
    faulty_with(11, "in v0 provisional; in |v0|; skip");
    faulty_with(11, "in v7; in v8; in |v7|; in v8; skip");
    faulty_with(11, "in v7; in v8; in |v8|; in v7; skip");
    faulty_with(11, "in v3; in |v3|; in v3; skip");
    faulty_with(11, "in v31; in\n\n|v31| ; skip");
    assert_eq!(marks("in v1; in v11; in v10; skip"), 0);
    // Every one of the 32 declared, and then one again.
    let every: String = (0..32).map(|v| format!("in v{v};")).collect();
    faulty_with(11, &format!("{every}in |v31|; skip"));
}

/// So many skips: as many rows, and one less for the sequences.
fn skips(count: usize) -> String {
    vec!["skip"; count].join("; ")
}

/// An output of an expression of this height.
fn tall(height: usize) -> String {
    let sums = height - 1;
    format!("settled {}1{}", "(".repeat(sums), "+1)".repeat(sums))
}

/// The same, with the taller side on the right.
fn tall_right(height: usize) -> String {
    let sums = height - 1;
    format!("settled {}1{}", "(1+".repeat(sums), ")".repeat(sums))
}

fn ifs(nesting: usize) -> String {
    let (before, after) = ("if v0 then ", " else skip end");
    format!("{}skip{}", before.repeat(nesting), after.repeat(nesting))
}

fn whiles(nesting: usize) -> String {
    let (before, after) = ("while v0 do ", " end");
    format!("{}skip{}", before.repeat(nesting), after.repeat(nesting))
}

#[test]
fn many_rows() {
    assert_eq!(rows(&skips(256)).len(), 511);
    let even = format!("set v0 = 1; {}", skips(255));
    assert_eq!(rows(&even).len(), 512);
    // 0 and 1 are the assignment, 2 to 256 the skips; the last two are joined first.
    assert_eq!(rows(&even)[257], [2, 255, 256, 0]);
    assert_eq!(rows(&even)[511], [2, 1, 510, 0]);
    refused_at_end(&skips(257), 12, 0);
    refused_at_end(&skips(2000), 12, 0);
}

/// "01's 5 (height, nesting, loop nesting, as the judge gives it for the table)"
#[test]
fn depths() {
    assert_eq!(rows(&tall(16)).len(), 32);
    assert_eq!(rows(&tall_right(16)).len(), 32);
    assert_eq!(rows(&ifs(8)).len(), 25);
    assert_eq!(rows(&whiles(3)).len(), 7);
    // The two lowest leaves and their sum are rows 0 to 2; each further sum has two rows, so
    // that the one of height h is row 2h - 2.
    refused_at_end(&tall(17), 5, 32);
    refused_at_end(&tall(20), 5, 32);
    // 17 leaves come first, then the sums from the inmost.
    refused_at_end(&tall_right(17), 5, 32);
    refused_at_end(&tall_right(18), 5, 33);
    // 9 tests and the skip come first, then a skip and its if, nine times.
    refused_at_end(&ifs(9), 5, 27);
    // 4 tests and the skip come first, then the whiles.
    refused_at_end(&whiles(4), 5, 8);
    // The lowest row of any of the three.
    refused_at_end(&format!("{}; {}", whiles(4), tall(17)), 5, 8);
    refused_at_end(&format!("{}; {}", tall(17), whiles(4)), 5, 32);
    refused_at_end(&format!("skip; {}", whiles(4)), 5, 9);
    // A declaration is no row.
    refused_at_end(&format!("in v0; {}", whiles(4)), 5, 8);
}

#[test]
fn lent_tables() {
    let text = b"set v0 = 1; skip";
    let written = [8, 1, 0, 0, 1, 0, 0, 0, 0, 0, 0, 0, 2, 1, 2, 0];
    for lent in 0..16 {
        assert_eq!(refused(text, lent), (13, 0, 16, 0), "{lent}");
    }
    for lent in [16, 17, 18, 19, 20, 3000] {
        let (reading, table) = read_into(text, lent);
        assert_eq!((reading.refused, reading.rows), (0, 4));
        assert_eq!(table[..16], written);
        assert!(table[16..].iter().all(|word| *word == OLD));
    }
    assert_eq!(refused(b"skip", 3), (13, 0, 4, 0));
    assert_eq!(refused(b"skip \n", 3), (13, 0, 6, 0));
}

/// The text with spaces after it, this many bytes in all.
fn padded(text: &str, bytes: usize) -> String {
    format!("{text:bytes$}")
}

#[test]
fn lengths() {
    assert_eq!(rows(&padded("skip", 16_384)).len(), 1);
    refused_at_end(&padded("skip", 16_385), 9, 0);
    refused_at_end(&padded("skip", 65_535), 9, 0);
    let spaces = " ".repeat(16_380);
    assert_eq!(rows(&format!("{spaces}skip")).len(), 1);
    refused_at_end(&format!("{spaces} skip"), 9, 0);
    unfinished(&" ".repeat(16_384));
    refused_at_end(&" ".repeat(16_385), 9, 0);
    faulty(&format!("|(|{}", "(".repeat(16_383)));
    unfinished(&format!("settled {}", "(".repeat(16_376)));
    unfinished(&"if 1 then ".repeat(1_638));
    faulty(&format!("|{}|", "1".repeat(16_384)));
    faulty(&format!("settled |{}|", "1".repeat(16_376)));
    // Whole recipes of this length are over 512 rows.
    refused_at_end(&padded(&tall(4_094), 16_384), 12, 0);
    refused_at_end(&padded(&ifs(600), 16_384), 12, 0);
    refused_at_end(&padded(&whiles(1_000), 16_384), 12, 0);
}

/// "9 [..], then 10 [..], 11 [..], 12 [..], 01's 5 [..], then 13": of two that apply the
/// earlier one is given, wherever in the text it is.
#[test]
fn order() {
    let again = "in v0; in v0; ";
    let long = |text: &str| padded(text, 16_385);
    for text in [
        "skip end".to_string(),
        format!("{again}skip"),
        skips(257),
        whiles(4),
    ] {
        refused_at_end(&long(&text), 9, 0);
    }
    assert_eq!(refused(long("skip").as_bytes(), 0), (9, 0, 16_385, 0));

    faulty(&format!("{again}skip |end|"));
    unfinished(&format!("{again}skip;"));
    unfinished("in v0; in v0");
    faulty(&format!("{} |end|", skips(257)));
    faulty(&format!("{} |end|", whiles(4)));
    assert_eq!(refused(b"skip end", 0), (10, 0, 5, 3));

    faulty_with(11, &format!("in v0; in |v0|; {}", skips(257)));
    faulty_with(11, &format!("in v0; in |v0|; {}", whiles(4)));
    assert_eq!(refused(b"in v0; in v0; skip", 0), (11, 0, 10, 2));

    refused_at_end(&format!("{}; {}", whiles(4), skips(257)), 12, 0);
    let many = skips(257);
    assert_eq!(refused(many.as_bytes(), 0), (12, 0, many.len(), 0));
    let deep = whiles(4);
    assert_eq!(refused(deep.as_bytes(), 0), (5, 8, deep.len(), 0));
}
