//! Document 02, P8: gate lists written as OpenQASM 2.0 text, and read from it.

use plain::file::LONG_BYTES;
use plain::{gates_to_operator, gates_to_qasm, qasm_to_gates};

/// What an untouched byte of an output buffer holds.
const UNTOUCHED: u8 = 0xA5;

const FIRST_LINES: [&str; 3] = [
    "OPENQASM 2.0;\n",
    "include \"qelib1.inc\";\n",
    "qreg q[2];\n",
];

/// The statement that is written for each letter.
const WRITTEN: [(u8, &str); 6] = [
    (b'H', "h q[0];\n"),
    (b'h', "h q[1];\n"),
    (b'S', "s q[0];\n"),
    (b's', "s q[1];\n"),
    (b'Z', "cz q[0],q[1];\n"),
    (b'C', "cu1(pi/2) q[0],q[1];\n"),
];

/// The reverse, which is read too.
const REVERSED: [(u8, &str); 2] = [(b'Z', "cz q[1],q[0];\n"), (b'C', "cu1(pi/2) q[1],q[0];\n")];

/// The most letters of a list that is written, and the most statements of a text that is read.
const FULL: usize = 16_384;

/// The longest text that is written.
const LONGEST: usize = 344_111;

/// Lines that are none of those of a text.
const WRONG_LINES: [&str; 75] = [
    // Spaces, tabs, carriage returns.
    "\n",
    " \n",
    "\t\n",
    "\r\n",
    "h\tq[0];\n",
    "h  q[0];\n",
    "h q[0] ;\n",
    "h q[0]; \n",
    " h q[0];\n",
    "\th q[0];\n",
    "h q [0];\n",
    "h q[ 0];\n",
    "h q[0];\r\n",
    "h q[0]\r;\n",
    "hq[0];\n",
    "cz q[0], q[1];\n",
    "cz q[0] ,q[1];\n",
    "cz q[0] q[1];\n",
    "cz  q[0],q[1];\n",
    "cz q[0],\tq[1];\n",
    "cz q[0],q[1] ;\n",
    "cu1 (pi/2) q[0],q[1];\n",
    "cu1( pi/2) q[0],q[1];\n",
    "cu1(pi / 2) q[0],q[1];\n",
    "cu1(pi/2)  q[0],q[1];\n",
    "cu1(pi/2) q[0], q[1];\n",
    "cu1(pi/2)q[0],q[1];\n",
    // Comments.
    "// h q[0];\n",
    "h q[0]; // h\n",
    "h q[0];//\n",
    // Semicolons.
    "h q[0]\n",
    "h q[0];;\n",
    ";\n",
    "h q[0]:\n",
    "h q[0];h q[1];\n",
    "h q[0]; h q[1];\n",
    // Upper case.
    "H q[0];\n",
    "S q[1];\n",
    "h Q[0];\n",
    "CZ q[0],q[1];\n",
    "cZ q[0],q[1];\n",
    "CU1(pi/2) q[0],q[1];\n",
    "cu1(PI/2) q[0],q[1];\n",
    // Other qubits.
    "h q[2];\n",
    "h q[-1];\n",
    "h q[00];\n",
    "h q[01];\n",
    "h q[];\n",
    "h q;\n",
    "h ;\n",
    "h\n",
    "h r[0];\n",
    "h q(0);\n",
    "cz q[0],q[2];\n",
    "cz q[2],q[1];\n",
    // One qubit twice, one alone, two for a gate on one, three.
    "cz q[0],q[0];\n",
    "cz q[1],q[1];\n",
    "cu1(pi/2) q[0],q[0];\n",
    "cu1(pi/2) q[1],q[1];\n",
    "cz q[0];\n",
    "cz q[0],;\n",
    "cz ,q[1];\n",
    "cu1(pi/2) q[1];\n",
    "h q[0],q[1];\n",
    "s q[1],q[0];\n",
    "cz q[0],q[1],q[0];\n",
    // Other gates and statements.
    "x q[0];\n",
    "sdg q[0];\n",
    "t q[1];\n",
    "cx q[0],q[1];\n",
    "cu1(pi/4) q[0],q[1];\n",
    "cu1(-pi/2) q[0],q[1];\n",
    "cu1 q[0],q[1];\n",
    "creg c[2];\n",
    "OPENQASM 3.0;\n",
];

/// All eight statements, each with its letter.
fn statements() -> impl Iterator<Item = (u8, &'static str)> {
    WRITTEN.into_iter().chain(REVERSED)
}

/// The first three lines and what follows them.
fn text(statements: &str) -> Vec<u8> {
    format!("{}{statements}", FIRST_LINES.concat()).into_bytes()
}

/// The letter of a line, if it is one of the eight statements.
fn letter(line: &[u8]) -> Option<u8> {
    let mut letters = statements().filter(|(_, statement)| statement.as_bytes() == line);
    letters.next().map(|(letter, _)| letter)
}

/// A list of so many letters, all six of them in turn.
fn list(len: usize) -> Vec<u8> {
    b"HhSsZC".iter().copied().cycle().take(len).collect()
}

/// The text that is written for a list.
fn text_of(list: &[u8]) -> Vec<u8> {
    let statement = |&letter: &u8| WRITTEN.iter().find(|(of, _)| *of == letter).unwrap().1;
    text(&list.iter().rev().map(statement).collect::<String>())
}

type Call = fn(&[u8], &mut [u8]) -> Result<usize, u8>;

/// The call writes this, and the bytes past it are kept; with fewer bytes there is no room.
fn assert_output(call: Call, input: &[u8], output: &[u8]) {
    let mut out = vec![UNTOUCHED; output.len() + 5];
    assert_eq!(call(input, &mut out), Ok(output.len()));
    assert_eq!(&out[..output.len()], output);
    assert_eq!(out[output.len()..], [UNTOUCHED; 5]);
    let mut out = vec![UNTOUCHED; output.len()];
    assert_eq!(call(input, &mut out), Ok(output.len()));
    assert_eq!(out, output);
    if let Some(last) = output.len().checked_sub(1) {
        assert_refused_with(call, input, 6, last);
        assert_refused_with(call, input, 6, last / 2);
        assert_refused_with(call, input, 6, 0);
    }
}

/// The call refuses, and no byte is written.
fn assert_refused_with(call: Call, input: &[u8], refusal: u8, out_len: usize) {
    let mut out = vec![UNTOUCHED; out_len];
    let shown = String::from_utf8_lossy(&input[..input.len().min(200)]);
    assert_eq!(call(input, &mut out), Err(refusal), "{shown:?}");
    assert!(out.iter().all(|&byte| byte == UNTOUCHED));
}

/// The same, whether or not the buffer has room.
fn assert_refused(call: Call, input: &[u8], refusal: u8) {
    assert_refused_with(call, input, refusal, 0);
    assert_refused_with(call, input, refusal, LONGEST);
}

fn assert_written(list: &[u8], text: &[u8]) {
    assert_output(gates_to_qasm, list, text);
}

fn assert_read(text: &[u8], list: &[u8]) {
    assert_output(qasm_to_gates, text, list);
}

fn assert_no_text(text: &[u8]) {
    assert_refused_with(qasm_to_gates, text, 23, 0);
    assert_refused_with(qasm_to_gates, text, 23, 100);
}

/// A text of one line behind the first three is read if the line is a statement, and otherwise not.
fn assert_line(line: &[u8]) {
    let text = [FIRST_LINES.concat().as_bytes(), line].concat();
    match letter(line) {
        Some(letter) => assert_read(&text, &[letter]),
        None => assert_no_text(&text),
    }
}

#[test]
fn the_empty_list() {
    let three_lines = b"OPENQASM 2.0;\ninclude \"qelib1.inc\";\nqreg q[2];\n";
    assert_eq!(three_lines.len(), 47);
    assert_written(b"", three_lines);
    assert_read(three_lines, b"");
}

#[test]
fn every_letter_has_its_statement() {
    for (letter, statement) in WRITTEN {
        assert_written(&[letter], &text(statement));
    }
    for (letter, statement) in statements() {
        assert_read(&text(statement), &[letter]);
    }
}

#[test]
fn the_first_statement_is_the_last_letter() {
    let expected = text("s q[1];\nh q[0];\ncu1(pi/2) q[0],q[1];\n");
    assert_written(b"CHs", &expected);
    assert_read(&expected, b"CHs");
    let reversed = text("cu1(pi/2) q[1],q[0];\ns q[0];\ncz q[1],q[0];\nh q[1];\n");
    assert_read(&reversed, b"hZSC");
}

#[test]
fn every_short_list_comes_back() {
    let mut lists = vec![vec![]];
    for _ in 0..4 {
        for list in &lists {
            assert_written(list, &text_of(list));
            assert_read(&text_of(list), list);
        }
        let longer = lists.iter().flat_map(|list| {
            let letters = WRITTEN.iter().map(|(letter, _)| *letter);
            letters.map(|letter| [list.as_slice(), &[letter]].concat())
        });
        lists = longer.collect();
    }
}

#[test]
fn as_many_letters_as_there_may_be() {
    for len in (5..300).chain(FULL - 2..=FULL) {
        let list = list(len);
        assert_written(&list, &text_of(&list));
        assert_read(&text_of(&list), &list);
    }
}

#[test]
fn the_longest_text() {
    let list = [b'C'; FULL];
    let mut out = vec![UNTOUCHED; LONGEST];
    assert_eq!(gates_to_qasm(&list, &mut out), Ok(LONGEST));
    assert_read(&out, &list);
    assert_eq!(plain::qasm::MAX_TEXT, LONGEST);
    let reversed = text(&REVERSED[1].1.repeat(FULL));
    assert_eq!(reversed.len(), LONGEST);
    assert_read(&reversed, &list);
}

#[test]
fn no_depth_is_too_deep() {
    let list = b"ChH".repeat(80);
    let file = &mut [0; LONG_BYTES];
    assert_eq!(gates_to_operator(&list, file), Err(9));
    assert_written(&list, &text_of(&list));
    assert_read(&text_of(&list), &list);
}

#[test]
fn more_letters_than_there_may_be() {
    for len in [FULL + 1, FULL + 2, FULL + 3, 2 * FULL, 65_536 + 1, 100_000] {
        assert_refused(gates_to_qasm, &list(len), 7);
        assert_refused(gates_to_qasm, &vec![b'C'; len], 7);
    }
}

#[test]
fn more_statements_than_there_may_be() {
    for len in [FULL + 1, FULL + 2, FULL + 3, 2 * FULL, 65_536 + 1] {
        assert_refused(qasm_to_gates, &text_of(&list(len)), 7);
        assert_refused(qasm_to_gates, &text(&REVERSED[0].1.repeat(len)), 7);
    }
}

#[test]
fn bytes_that_are_no_letters() {
    let letters = WRITTEN.map(|(letter, _)| letter);
    for byte in (0..=255).filter(|byte| !letters.contains(byte)) {
        assert_refused_with(gates_to_qasm, &[byte], 8, 0);
        assert_refused_with(gates_to_qasm, &[byte], 8, 100);
        for place in 0..4 {
            let mut list = *b"ChsZ";
            list[place] = byte;
            assert_refused_with(gates_to_qasm, &list, 8, 0);
            assert_refused_with(gates_to_qasm, &list, 8, 300);
        }
    }
    for place in [0, 1, FULL / 2, FULL - 1] {
        let mut list = list(FULL);
        list[place] = b'c';
        assert_refused(gates_to_qasm, &list, 8);
    }
}

#[test]
fn the_first_refusal_of_a_list_is_answered() {
    // 7 before 8, at every place, and before 6.
    for place in [0, FULL - 1, FULL] {
        let mut list = list(FULL + 1);
        list[place] = b'x';
        assert_refused(gates_to_qasm, &list, 7);
    }
    assert_refused(gates_to_qasm, &[0; FULL + 1], 7);
    assert_refused(gates_to_qasm, &[0; FULL], 8);
    // 8 before 6.
    assert_refused_with(gates_to_qasm, b"x", 8, 46);
    assert_refused_with(gates_to_qasm, b"Hx", 8, 47);
    assert_refused_with(gates_to_qasm, b"xH", 8, 54);
    assert_refused_with(gates_to_qasm, b"H", 6, 54);
}

#[test]
fn no_text_at_all() {
    assert_no_text(b"");
}

#[test]
fn lines_that_are_none_of_these() {
    for line in WRONG_LINES {
        for (_, statement) in statements() {
            assert_no_text(&text(&[line, statement].concat()));
            assert_no_text(&text(&[statement, line].concat()));
            assert_no_text(&text(&[statement, line, statement].concat()));
        }
        assert_no_text(&text(line));
        assert_no_text(&text(&line.repeat(2)));
        for place in 0..3 {
            let mut lines = FIRST_LINES;
            lines[place] = line;
            assert_no_text(lines.concat().as_bytes());
            let more = [&FIRST_LINES[..place], &[line], &FIRST_LINES[place..]].concat();
            assert_no_text(more.concat().as_bytes());
        }
    }
}

#[test]
fn a_first_line_that_is_missing() {
    for place in 0..3 {
        let mut lines = FIRST_LINES.to_vec();
        lines.remove(place);
        for end in ["", "h q[0];\n"] {
            assert_no_text(format!("{}{end}", lines.concat()).as_bytes());
        }
    }
    for line in FIRST_LINES {
        assert_no_text(line.as_bytes());
    }
    assert_no_text(b"h q[0];\n");
}

#[test]
fn a_first_line_that_is_repeated() {
    for line in FIRST_LINES {
        for place in 0..6 {
            let statements = ["h q[0];\n", "cz q[1],q[0];\n"];
            let mut lines = [&FIRST_LINES[..], &statements].concat();
            lines.insert(place, line);
            assert_no_text(lines.concat().as_bytes());
        }
        assert_no_text(&text(line));
    }
    assert_no_text(&text(&FIRST_LINES.concat()));
    assert_no_text(&text_of(b"CHs").repeat(2));
}

#[test]
fn a_first_line_that_is_out_of_its_place() {
    for order in [[0, 2, 1], [1, 0, 2], [1, 2, 0], [2, 0, 1], [2, 1, 0]] {
        let lines = order.map(|line| FIRST_LINES[line]).concat();
        assert_no_text(lines.as_bytes());
        assert_no_text(format!("{lines}h q[0];\n").as_bytes());
    }
    // A statement stands before one of them.
    for place in 0..3 {
        let mut lines = FIRST_LINES.to_vec();
        lines.insert(place, "s q[1];\n");
        assert_no_text(lines.concat().as_bytes());
    }
}

#[test]
fn a_last_line_with_no_line_feed() {
    let lists: [&[u8]; 4] = [b"", b"H", b"CZ", b"CHs"];
    for list in lists {
        let text = text_of(list);
        for end in 0..text.len() {
            let cut = &text[..end];
            let statements = cut.iter().filter(|&&byte| byte == b'\n').count();
            if end >= 47 && cut.ends_with(b"\n") {
                assert_read(cut, &list[list.len() - (statements - 3)..]);
            } else {
                assert_no_text(cut);
            }
        }
    }
}

#[test]
fn other_line_ends() {
    let text = String::from_utf8(text_of(b"CHs")).unwrap();
    for end in [
        "\r\n", "\r", "\n\r", "\n\n", " \n", "\0\n", "\0", "\x0b", "\x0c", "",
    ] {
        assert_no_text(text.replace('\n', end).as_bytes());
    }
    assert_no_text(format!("{text}\n").as_bytes());
    assert_no_text(format!("\n{text}").as_bytes());
    assert_no_text(format!("\u{feff}{text}").as_bytes());
    assert_no_text(format!("{text}\0").as_bytes());
}

#[test]
fn every_byte_of_the_first_lines_counts() {
    let first = text("");
    for place in 0..first.len() {
        let mut shorter = first.clone();
        shorter.remove(place);
        assert_no_text(&shorter);
        for byte in 0..=255 {
            let mut longer = first.clone();
            longer.insert(place, byte);
            assert_no_text(&longer);
            let mut other = first.clone();
            other[place] = byte;
            if other != first {
                assert_no_text(&other);
            }
        }
    }
}

#[test]
fn every_byte_of_a_statement_counts() {
    for (_, statement) in statements() {
        let statement = statement.as_bytes();
        for place in 0..statement.len() {
            let mut shorter = statement.to_vec();
            shorter.remove(place);
            assert_line(&shorter);
            for byte in 0..=255 {
                let mut longer = statement.to_vec();
                longer.insert(place, byte);
                assert_line(&longer);
                let mut other = statement.to_vec();
                other[place] = byte;
                assert_line(&other);
            }
        }
    }
}

#[test]
fn the_first_refusal_of_a_text_is_answered() {
    // 23 before 7, wherever the line stands, and before 6.
    for place in [0, 1, FULL - 1, FULL, FULL + 1, FULL + 2] {
        let mut lines = vec!["h q[0];\n"; FULL + 2];
        lines.insert(place, "h q[2];\n");
        assert_refused(qasm_to_gates, &text(&lines.concat()), 23);
    }
    let mut unended = text_of(&list(FULL + 1));
    unended.pop();
    assert_refused(qasm_to_gates, &unended, 23);
    assert_refused(qasm_to_gates, &text_of(&list(FULL + 1))[1..], 23);
    // An empty line behind the last statement that there may be.
    let full = "s q[1];\n".repeat(FULL);
    assert_refused(qasm_to_gates, &text(&format!("{full}\n")), 23);
    // 7 before 6.
    assert_refused_with(qasm_to_gates, &text_of(&list(FULL + 1)), 7, FULL);
    assert_refused_with(qasm_to_gates, &text_of(&list(FULL)), 6, FULL - 1);
}
