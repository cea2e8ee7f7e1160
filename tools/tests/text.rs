//! Text to records and back.
#![forbid(unsafe_code)]

mod common;

use common::{bytes, example, file, fresh, written};
use std::fs;

/// What the tool says of an input that is bad; it then writes nothing.
fn said(arguments: &[&str], input: &[u8]) -> String {
    let said = common::said(arguments, input);
    let what = said.strip_prefix("standard input: ");
    String::from(what.expect("it names the input"))
}

/// A record of step D: "sheet", "plan" or "moves".
fn step_d(record: &str) -> Vec<u8> {
    bytes(&example(&format!("step-d/{record}")))
}

const WORDS_D: [(&str, &str); 3] = [
    ("sheet", "3 100 3 0 65 130 90 6 4\n"),
    ("plan", "3 2 36 0 0 0 0 27 29\n"),
    ("moves", "3 2 1 2 27 29\n"),
];

#[test]
fn words_become_records_and_come_back() {
    for (record, words) in WORDS_D {
        let bytes = step_d(record);
        assert_eq!(written(&["write", record], words.as_bytes()), bytes);
        assert_eq!(written(&["write", "any"], words.as_bytes()), bytes);
        assert_eq!(written(&["words"], &bytes), words.as_bytes());
    }
    let spread = b"# D\n  3\t100 3\r\n\n0 65 130\n90\n6 4";
    assert_eq!(written(&["write", "sheet"], spread), step_d("sheet"));
    assert_eq!(written(&["write", "any"], b"4294967295"), [255; 4]);
}

const TABLES_D: [(&str, &str); 3] = [
    (
        "sheet",
        "# sheet: cells 3, particles 100, limit 36\n\
        nodes 3 tolerance 10 percent\n\
        holder,subdomain,count\n\
        0,0,90\n\
        1,1,6\n\
        2,2,4\n",
    ),
    (
        "plan",
        "# plan: nodes 3, rebuilt\n\
        kind 2 limit 36\n\
        node,helps,share\n\
        0,0,0\n\
        1,0,27\n\
        2,0,29\n",
    ),
    (
        "moves",
        "# moves: 2\n\
        nodes 3\n\
        subdomain,from,to,count\n\
        0,0,1,27\n\
        0,0,2,29\n",
    ),
];

#[test]
fn what_is_shown_can_be_written() {
    for (record, text) in TABLES_D {
        let shown = written(&["show", record], &step_d(record));
        assert_eq!(String::from_utf8_lossy(&shown), text);
        assert_eq!(written(&["write", record], &shown), step_d(record));
    }
    let words = [
        ("sheet", "64 999 0"),
        ("sheet", "3 35 1 0 10000"),
        ("sheet", "64 1 3 63 64 4095 1 999999998 1"),
        ("plan", "1 0 0 0 0"),
        ("plan", "4 1 1999000000 1 2 3 3 7 1999000000 0 0"),
        ("moves", "64 0"),
        ("moves", "64 2 1 262142 1000000000 1"),
    ];
    for (record, words) in words {
        let bytes = written(&["write", record], words.as_bytes());
        let shown = written(&["show", record], &bytes);
        assert_eq!(written(&["write", record], &shown), bytes, "{words}");
    }
}

#[test]
fn tables_may_be_written_in_other_ways() {
    let plans = [
        "kind 2 limit 36\n0,0,0\n1,0,27\n2,0,29",
        "\u{feff}# by hand\r\nKind 2  Limit\t36\r\n\r\nNode, Helps, Share\r\n2,0,29\r\n0,0,0\r\n 1 ,\t0, 27\r\n",
    ];
    for plan in plans {
        let record = written(&["write", "plan"], plan.as_bytes());
        assert_eq!(record, step_d("plan"), "{plan}");
    }
    let moves = b"NODES 3\n0,0,2,29\n0,0,1,27";
    assert_eq!(written(&["write", "moves"], moves), step_d("moves"));
    let sheet = b"nodes 3 Tolerance 10.0 percent\n2,2,4\n0,1,0\n1,1,6\n0,0,90";
    assert_eq!(written(&["write", "sheet"], sheet), step_d("sheet"));
    // `table` takes a head line too, if it says the same.
    assert_eq!(written(&TABLE, sheet), step_d("sheet"));
    let other = said(&TABLE, b"\nnodes 3 tolerance 11 percent\n0,0,90");
    assert_eq!(other, "line 2, column 1: this line differs from -n 3 -t 10");
}

const TABLE: [&str; 5] = ["table", "-n", "3", "-t", "10"];

#[test]
fn a_table_becomes_a_sheet() {
    let tables = [
        "0,0,90\n1,1,6\n2,2,4\n",
        "holder,subdomain,count\n0,0,90\n1,1,6\n2,2,4",
        "\u{feff}Holder, Subdomain, Count\r\n2,2,4\r\n0,0,90\r\n1,1,6\r\n",
        "\n 1 ,\t1 , 6\n\n# none\n0,0,90\n0,1,0\n2,2,4\n\n",
    ];
    for table in tables {
        assert_eq!(written(&TABLE, table.as_bytes()), step_d("sheet"));
    }
    // Step E's rows by subdomain; its cells rise.
    let step_e = b"0,0,30\n1,0,27\n2,0,30\n1,1,6\n0,2,3\n2,2,4\n";
    let words = b"3 100 6 0 2 64 65 128 130 30 3 27 6 30 4";
    assert_eq!(written(&TABLE, step_e), written(&["write", "any"], words));
}

#[test]
fn an_empty_table_is_refused_unless_asked_for() {
    let none = written(&["write", "any"], b"3 100 0");
    let what = "there is no count in it; --empty makes a sheet without particles";
    let asked = [&TABLE[..], &["--empty"]].concat();
    let empty = [
        "",
        "\n\n",
        "# nothing\n",
        "holder,subdomain,count\n",
        "nodes 3 tolerance 10 percent",
    ];
    for text in empty {
        assert_eq!(said(&TABLE, text.as_bytes()), what);
        assert_eq!(written(&asked, text.as_bytes()), none);
    }
    // Counts of 0 are counts.
    assert_eq!(written(&TABLE, b"0,0,0\n"), none);
    assert_eq!(written(&asked, b"0,0,90\n1,1,6\n2,2,4\n"), step_d("sheet"));
}

#[test]
fn a_wrong_header_line_is_named() {
    let cases = [
        ("a,b,c\n0,0,90", "'a,b,c'"),
        ("subdomain,holder,count\n0,0,90", "'subdomain,holder,count'"),
        ("holder;subdomain;count\n0;0;90", "'holder;subdomain;count'"),
        (
            "\"holder\",\"subdomain\"\n",
            "'\\\"holder\\\",\\\"subdomain\\\"'",
        ),
    ];
    for (text, line) in cases {
        let not = "not 'holder,subdomain,count'; it may be left away";
        let what = format!("line 1, column 1: the header line is {line}, {not}");
        assert_eq!(said(&TABLE, text.as_bytes()), what);
    }
    let plan = said(&["write", "plan"], b"kind 2 limit 36\nnode,helpand,share\n");
    let not = "not 'node,helps,share'; it may be left away";
    let what = format!("line 2, column 1: the header line is 'node,helpand,share', {not}");
    assert_eq!(plan, what);
}

#[test]
fn a_wrong_head_line_is_named() {
    let cases = [
        (
            "plan",
            "node,helps,share\n0,0,0",
            "the first line is 'node,helps,share', not 'kind K limit L'",
        ),
        (
            "plan",
            "kind 2 limit",
            "the first line is 'kind 2 limit', not 'kind K limit L'",
        ),
        (
            "plan",
            "kind 2 limit 36 3",
            "the first line is 'kind 2 limit 36 3', not 'kind K limit L'",
        ),
        (
            "plan",
            "limit 36 kind 2",
            "the first line is 'limit 36 kind 2', not 'kind K limit L'",
        ),
        (
            "sheet",
            "holder,subdomain,count",
            "the first line is 'holder,subdomain,count', not 'nodes N tolerance T percent'",
        ),
        // A tolerance without its unit.
        (
            "sheet",
            "nodes 3 tolerance 10",
            "the first line is 'nodes 3 tolerance 10', not 'nodes N tolerance T percent'",
        ),
        (
            "sheet",
            "nodes 3 tolerance 10 tenths",
            "the first line is 'nodes 3 tolerance 10 tenths', not 'nodes N tolerance T percent'",
        ),
        (
            "moves",
            "kind 2 limit 36",
            "the first line is 'kind 2 limit 36', not 'nodes N'",
        ),
    ];
    for (record, text, what) in cases {
        let said = said(&["write", record], text.as_bytes());
        assert_eq!(said, format!("line 1, column 1: {what}"));
    }
    let number = said(&["write", "plan"], b"kind two limit 36");
    assert_eq!(number, "line 1, column 6: 't' is no digit");
    let nodes = said(
        &["write", "sheet"],
        b"nodes 65 tolerance 10 percent\n64,0,1",
    );
    assert_eq!(nodes, "refused 2: sheet: N is not 1 to 64");
    let nodes = said(&["write", "moves"], b"nodes 65\n64,0,1,1");
    assert_eq!(nodes, "refused 32: moves: N is not 1 to 64");
}

/// In tables and calls the tolerance is in percent, in words in tenths of one.
#[test]
fn the_tolerance_is_in_percent() {
    let cases = [
        ("0.1", 1, "0.1"),
        ("3.5", 35, "3.5"),
        ("10", 100, "10"),
        ("10.0", 100, "10"),
        ("99.9", 999, "99.9"),
    ];
    for (percent, t, shown) in cases {
        let words = format!("3 {t} 1 0 10000");
        let record = written(&["write", "sheet"], words.as_bytes());
        let call = ["table", "-n", "3", "-t", percent];
        assert_eq!(written(&call, b"0,0,10000"), record);
        let table = format!("nodes 3 tolerance {percent} percent\n0,0,10000");
        assert_eq!(written(&["write", "sheet"], table.as_bytes()), record);
        let table = written(&["show", "sheet"], &record);
        let head = format!("\nnodes 3 tolerance {shown} percent\n");
        let table = String::from_utf8_lossy(&table);
        assert!(table.contains(&head), "{table}");
    }
}

#[test]
fn what_is_no_tolerance_is_explained() {
    let range = "the tolerance is 0.1 to 99.9 percent";
    let cases = [
        ("0", 0, range),
        ("0.0", 0, range),
        ("100", 0, range),
        ("350", 0, range),
        ("4294967295", 0, range),
        ("3.55", 0, "'3.55' is not written as 10 or 3.5"),
        ("3.", 0, "'3.' is not written as 10 or 3.5"),
        ("3.x", 0, "'3.x' is not written as 10 or 3.5"),
        ("3.5.1", 0, "'3.5.1' is not written as 10 or 3.5"),
        ("3,5", 0, "'3,5' has a comma: write a point"),
        (".5", 0, "a number is missing"),
        ("10%", 2, "'%' is no digit"),
        ("-3.5", 0, "'-3' has a sign: a number is digits only"),
        ("4294967296", 0, "the number is above 4,294,967,295"),
    ];
    for (percent, place, what) in cases {
        let table = format!("\nnodes 3 tolerance {percent} percent\n0,0,90");
        let in_table = format!("line 2, column {}: {what}", 19 + place);
        assert_eq!(said(&["write", "sheet"], table.as_bytes()), in_table);
        let call = ["table", "-n", "3", "-t", percent];
        let in_call = common::failed(common::firrozka(&call, b"0,0,90"), 2);
        let front = format!("firrozka: table: -t: {what}\n");
        assert!(in_call.starts_with(&front), "{in_call}");
    }
}

#[test]
fn what_is_no_number_is_explained() {
    let cases: [(&str, usize, &str); 11] = [
        ("x", 0, "'x' is no digit"),
        ("×", 0, "'×' is no digit"),
        ("5x", 1, "'x' is no digit"),
        ("each", 0, "'e' is no digit"),
        ("-1", 0, "'-1' has a sign: a number is digits only"),
        ("+1", 0, "'+1' has a sign: a number is digits only"),
        ("−1", 0, "'−1' has a sign: a number is digits only"),
        (
            "90.0",
            2,
            "'90.0' has a point: only whole numbers, without a point",
        ),
        (
            ".5",
            0,
            "'.5' has a point: only whole numbers, without a point",
        ),
        ("1e6", 1, "'1e6' has an exponent: write out all digits"),
        ("4294967296", 0, "the number is above 4,294,967,295"),
    ];
    for (number, place, what) in cases {
        // Counted in characters, not bytes.
        let words = format!("3\n  {number}\n");
        let in_words = format!("line 2, column {}: {what}", 3 + place);
        assert_eq!(said(&["write", "any"], words.as_bytes()), in_words);
        assert_eq!(said(&["write", "plan"], words.as_bytes()), in_words);
        let table = format!("0,0,90\n1, 1,{number}\n");
        let in_table = format!("line 2, column {}: {what}", 6 + place);
        assert_eq!(said(&TABLE, table.as_bytes()), in_table);
    }
    let comma = "line 1, column 2: '1,000' has a comma: words have blanks between them";
    assert_eq!(said(&["write", "any"], b"1,000"), comma);
    // A long one is cut short.
    let long = said(&["write", "any"], &[&[b'7'; 100][..], b"."].concat());
    let front = "7".repeat(40);
    assert!(
        long.contains(&format!("'{front}...' has a point")),
        "{long}"
    );
}

#[test]
fn what_is_no_text_is_refused_with_line_and_column() {
    let cases: [(&[u8], &str); 3] = [
        (b"3 100\n3 \xff", "line 2, column 3: this is no UTF-8 text"),
        // A mark of byte order is no column.
        (
            b"\xef\xbb\xbf3 \xff",
            "line 1, column 3: this is no UTF-8 text",
        ),
        (b"\xef\xbb\xbf3 x", "line 1, column 3: 'x' is no digit"),
    ];
    for (text, message) in cases {
        assert_eq!(said(&["write", "any"], text), message);
        assert_eq!(said(&["write", "plan"], text), message);
    }
    // A record in place of text.
    for (record, reading) in [("sheet", "a sheet"), ("plan", "a plan"), ("moves", "moves")] {
        for call in [&["write", "plan"][..], &TABLE] {
            let said = said(call, &step_d(record));
            assert!(
                said.ends_with(&format!("; this reads as {reading}")),
                "{said}"
            );
        }
    }
}

#[test]
fn bad_tables_are_refused_with_line_and_column() {
    let a_line = "a line is holder,subdomain,count, with commas between";
    let no_node = "the node is not below N, which is 3";
    let twice = "this holder and subdomain stand above already";
    let cases = [
        ("0,0,90\n0,x,6", "line 2, column 3", "'x' is no digit"),
        (
            "0,0,1\nholder,subdomain,count",
            "line 2, column 1",
            "'h' is no digit",
        ),
        ("0,0", "line 1, column 4", a_line),
        ("0,0,1\n\n 7 ", "line 3, column 3", a_line),
        ("0,0,1\n1;1;6", "line 2, column 6", a_line),
        ("0\t0\t1", "line 1, column 6", a_line),
        ("0,0,1, 5,6", "line 1, column 8", a_line),
        ("0,,1", "line 1, column 3", "a number is missing"),
        (",0,1", "line 1, column 1", "a number is missing"),
        ("0, 3,1", "line 1, column 4", no_node),
        ("4294967295,0,1", "line 1, column 1", no_node),
        ("0,0,1\n1,1,1\n 0,0,2", "line 3, column 2", twice),
        ("0,0,0\n0,0,1", "line 2, column 1", twice),
    ];
    for (text, place, what) in cases {
        assert_eq!(said(&TABLE, text.as_bytes()), format!("{place}: {what}"));
    }
}

#[test]
fn bad_tables_of_plans_and_moves_are_refused() {
    let cases = [
        (
            "plan",
            "kind 2 limit 36\n0,0,0\n1,0",
            "line 3, column 4: a line is node,helps,share, with commas between",
        ),
        (
            "plan",
            "kind 2 limit 36\n0,0,0\n0,0,0",
            "line 3, column 1: this node stands above already",
        ),
        (
            "plan",
            "kind 2 limit 36\n0,0,0\n2,0,0",
            "line 3, column 1: 2 lines are for nodes 0 to 1",
        ),
        (
            "plan",
            "kind 2 limit 36\n0,0,0\n1,2,0",
            "line 3, column 3: the node is not below N, which is 2",
        ),
        (
            "plan",
            "kind 2 limit 36\n0,0,0\n1,0,37",
            "refused 18: plan: a share is above the limit, or not 0 at a root",
        ),
        (
            "plan",
            "kind 2 limit 36\n",
            "refused 12: plan: N is not 1 to 64",
        ),
        (
            "moves",
            "nodes 3\n0,0,1",
            "line 2, column 6: a line is subdomain,from,to,count, with commas between",
        ),
        (
            "moves",
            "nodes 3\n0,0,3,1",
            "line 2, column 5: the node is not below N, which is 3",
        ),
        (
            "moves",
            "nodes 3\n0,0,1,1\n0,0,1,2",
            "line 3, column 1: this move stands above already",
        ),
        (
            "moves",
            "nodes 3\n0,0,1,0",
            "refused 36: moves: a count is 0 or above 1,000,000,000",
        ),
    ];
    for (record, text, what) in cases {
        assert_eq!(said(&["write", record], text.as_bytes()), what);
    }
}

#[test]
fn a_table_above_the_largest_total_is_refused_where_it_passes_it() {
    let most = written(&["write", "any"], b"3 100 2 0 65 400000000 600000000");
    assert_eq!(written(&TABLE, b"1,1,600000000\n0,0,400000000"), most);
    let above = "this count brings the total above 1,000,000,000";
    let cases = [
        ("0,0,1000000001", "line 1, column 5"),
        ("0,0,4294967295\n0,1,1", "line 1, column 5"),
        // The sheet has the cells in another order.
        ("2,2,600000000\n1,1,400000000\n0,0, 1\n", "line 3, column 6"),
        (
            "0,0,1000000000\n0,1,0\n0,2,4294967295\n",
            "line 3, column 5",
        ),
    ];
    for (text, place) in cases {
        let message = format!("{place}: {above}");
        assert_eq!(said(&TABLE, text.as_bytes()), message);
    }
}

#[test]
fn refusals_are_explained() {
    let words = |words: &str| written(&["write", "any"], words.as_bytes());
    let cases = [
        ("sheet", "3 100 2 65 0 6 90", "refused 6: sheet: a cell does not rise, or names a node not below N"),
        ("plan", "1 2 36 0 0", "refused 13: plan: the kind is above 2, or not 0 with one node"),
        ("moves", "3 1 0 5", "refused 35: moves: a route does not rise, names a node not below N, or has one node as sender and receiver"),
    ];
    for (record, text, message) in cases {
        assert_eq!(said(&["show", record], &words(text)), message);
        assert_eq!(said(&["write", record], text.as_bytes()), message);
    }
    assert_eq!(said(&["words"], b"12345"), "5 bytes are no whole words");
}

#[test]
fn typed_words_are_counted_in_words() {
    let cases = [
        (
            "sheet",
            "",
            "refused 1: sheet: at least 3 words expected, 0 given",
        ),
        (
            "sheet",
            "3 100",
            "refused 1: sheet: at least 3 words expected, 2 given",
        ),
        (
            "sheet",
            "3 100 5 0 64 65 128 130 34 27 6 29",
            "refused 5: sheet: 13 words expected, 12 given",
        ),
        (
            "plan",
            "3 2",
            "refused 11: plan: at least 3 words expected, 2 given",
        ),
        (
            "plan",
            "3 2 36 0 0 0 0 27 29 0",
            "refused 15: plan: 9 words expected, 10 given",
        ),
        (
            "moves",
            "3",
            "refused 31: moves: at least 2 words expected, 1 given",
        ),
        (
            "moves",
            "3 2 1 2 27 29 0",
            "refused 34: moves: 6 words expected, 7 given",
        ),
        (
            "sheet",
            "3 2 36 0 0 0 0 27 29",
            "refused 4: sheet: E is above N × N; this reads as a plan",
        ),
        (
            "plan",
            "3 2 1 2 27 29",
            "refused 15: plan: 9 words expected, 6 given; this reads as moves",
        ),
    ];
    for (record, text, message) in cases {
        assert_eq!(said(&["write", record], text.as_bytes()), message);
    }
}

#[test]
fn files_are_written_only_when_all_is_well() {
    let output = fresh("bad-table.sheet");
    let call = |table: &str| {
        let input = file("bad-table", table.as_bytes());
        let call = [&TABLE[..], &["-o", &output, &input]].concat();
        (input.clone(), common::firrozka(&call, b""))
    };

    let (input, bad) = call("0,0,90\n1;1;6\n");
    let fault = "line 2, column 6: a line is holder,subdomain,count, with commas between";
    assert_eq!(common::failed(bad, 1), format!("{input}: {fault}\n"));
    assert!(fs::metadata(&output).is_err());

    let (_, good) = call("0,0,90\n1,1,6\n2,2,4\n");
    assert!(good.status.success());
    assert_eq!(good.stdout, b"");
    assert_eq!(bytes(&output), step_d("sheet"));

    // What stands there already stays.
    let (_, bad) = call("0,0,90\n1,1,6,\n");
    common::failed(bad, 1);
    assert_eq!(bytes(&output), step_d("sheet"));
}
