//! Damages of texts. Each may leave its object as it was.

// Damages have one type, whether or not they change the length.
#![allow(clippy::ptr_arg)]

use plain::gate::MAX_LETTERS;
use samples::{Line, Random, Text, FIRST_LINES, STATEMENTS};

use crate::damages::{
    byte_at_end, byte_at_front, cut_end, cut_front, flip_bit, no_bytes, random_bytes, swap_bytes,
    Damage,
};

/// Lines that no text has.
pub const WRONG_LINES: [&str; 48] = [
    "",
    " ",
    "\r",
    ";",
    "//",
    "// h q[0];",
    "h q[0]; // first",
    "h q[0];//",
    "h q[0]; ",
    " h q[0];",
    "\th q[0];",
    "h\tq[0];",
    "h  q[0];",
    "h q[0] ;",
    "h q[0];\r",
    "h q[0];;",
    "h q[0];s q[1];",
    "h q[0]",
    "hq[0];",
    "h q[2];",
    "h q[10];",
    "h q[];",
    "h q;",
    "h ;",
    "h",
    "h q[0],q[1];",
    "s q[0],q[0];",
    "H q[0];",
    "S q[1];",
    "h Q[0];",
    "x q[0];",
    "t q[0];",
    "sdg q[0];",
    "cz q[0];",
    "cz q[0],q[0];",
    "cz q[1],q[1];",
    "cz q[0],q[2];",
    "cz q[0], q[1];",
    "cz q[0] ,q[1];",
    "cz q[0],q[1],q[0];",
    "CZ q[0],q[1];",
    "cx q[0],q[1];",
    "cu1(pi/2) q[0],q[0];",
    "cu1(pi/2) q[1],q[1];",
    "cu1(pi/2) q[1];",
    "cu1(pi/2) q[0], q[1];",
    "cu1(pi/4) q[0],q[1];",
    "cu1 (pi/2) q[0],q[1];",
];

/// Gates, known ones among them.
const NAMES: [&str; 16] = [
    "h",
    "s",
    "cz",
    "cu1(pi/2)",
    "H",
    "S",
    "CZ",
    "x",
    "z",
    "t",
    "sdg",
    "cx",
    "cu1",
    "cu1(pi/4)",
    "cu1(-pi/2)",
    "",
];

/// What gates are on, known ones among them.
const OPERANDS: [&str; 16] = [
    "q[0]",
    "q[1]",
    "q[0],q[1]",
    "q[1],q[0]",
    "q[0],q[0]",
    "q[1],q[1]",
    "q[0],q[1],q[0]",
    "q[0], q[1]",
    "q[0] q[1]",
    "q[0],",
    ",q[1]",
    "q[2]",
    "q[0],q[2]",
    "q[00]",
    "q",
    "",
];

/// Bytes of lines, and bytes beside them in value or in looks.
const NEAR_BYTES: [u8; 33] = *b" \t\r\n\0\x0b\x0c\x7f\x80\xa0\xff;:,.[](){}/\"0123hsHqQi";

type LineDamage = fn(&mut Random, &mut Text);

/// Damages of the lines of a text.
pub const LINE_DAMAGES: [LineDamage; 25] = [
    without_a_line,
    repeat_line,
    first_line_again,
    move_first_line,
    first_lines_again,
    without_first_lines,
    swap_lines,
    swap_first_lines,
    statement_more,
    wrong_line_more,
    wrong_line_instead,
    join_lines,
    split_line,
    white_space_more,
    white_space_instead,
    without_space,
    white_space_at_end,
    comment_at_end,
    upper_case,
    other_digit,
    other_name,
    other_operands,
    without_semicolon,
    two_in_a_line,
    random_line,
];

/// Damages of the bytes of a text.
pub const BYTE_DAMAGES: [Damage; 18] = [
    no_bytes,
    cut_end,
    cut_front,
    byte_at_end,
    byte_at_front,
    flip_bit,
    swap_bytes,
    random_bytes,
    without_last_byte,
    without_a_byte,
    byte_more,
    byte_instead,
    repeat_byte,
    swap_neighbours,
    other_line_ends,
    line_feed_more,
    byte_order_mark,
    text_again,
];

/// The place of a line, if there are any: often one of the first, the last, or one around the last statement
/// that there may be.
fn place_in(random: &mut Random, text: &Text) -> Option<usize> {
    let last = text.lines.len().checked_sub(1)?;
    let place = match random.below(8) {
        0 | 1 => random.below(FIRST_LINES.len() + 1),
        2 => last,
        3 => FIRST_LINES.len() + MAX_LETTERS - 2 + random.below(4),
        _ => random.below(text.lines.len()),
    };
    Some(place.min(last))
}

fn line_in<'a>(random: &mut Random, text: &'a mut Text) -> Option<&'a mut Vec<u8>> {
    let place = place_in(random, text)?;
    text.lines.get_mut(place).map(Line::to_mut)
}

/// Puts a line before, between or behind the others.
pub fn put_line(random: &mut Random, text: &mut Text, line: impl Into<Line>) {
    let place = place_in(random, text).map_or(0, |place| place + random.below(2));
    text.lines.insert(place, line.into());
}

/// A place in the line, its end included.
fn gap_in(random: &mut Random, line: &[u8]) -> usize {
    random.below(line.len() + 1)
}

fn without_a_line(random: &mut Random, text: &mut Text) {
    if let Some(place) = place_in(random, text) {
        text.lines.remove(place);
    }
}

fn repeat_line(random: &mut Random, text: &mut Text) {
    if let Some(place) = place_in(random, text) {
        text.lines.insert(place, text.lines[place].clone());
    }
}

fn first_line_again(random: &mut Random, text: &mut Text) {
    let line = random.pick(&FIRST_LINES);
    put_line(random, text, line.as_bytes());
}

fn move_first_line(random: &mut Random, text: &mut Text) {
    if text.lines.len() >= FIRST_LINES.len() {
        let line = text.lines.remove(random.below(FIRST_LINES.len()));
        put_line(random, text, line);
    }
}

fn first_lines_again(random: &mut Random, text: &mut Text) {
    if let Some(place) = place_in(random, text) {
        let lines = FIRST_LINES.map(|line| line.as_bytes().into());
        text.lines.splice(place..place, lines);
    }
}

fn without_first_lines(random: &mut Random, text: &mut Text) {
    let lines = 1 + random.below(FIRST_LINES.len());
    text.lines.drain(..lines.min(text.lines.len()));
}

fn swap_lines(random: &mut Random, text: &mut Text) {
    if let (Some(i), Some(j)) = (place_in(random, text), place_in(random, text)) {
        text.lines.swap(i, j);
    }
}

fn swap_first_lines(random: &mut Random, text: &mut Text) {
    if text.lines.len() >= FIRST_LINES.len() {
        let (i, j) = random.two_below(FIRST_LINES.len());
        text.lines.swap(i, j);
    }
}

/// Also before or between the first three lines.
fn statement_more(random: &mut Random, text: &mut Text) {
    let (_, statement) = random.pick(&STATEMENTS);
    put_line(random, text, statement.as_bytes());
}

fn wrong_line_more(random: &mut Random, text: &mut Text) {
    let line = random.pick(&WRONG_LINES);
    put_line(random, text, line.as_bytes());
}

fn wrong_line_instead(random: &mut Random, text: &mut Text) {
    if let Some(line) = line_in(random, text) {
        *line = random.pick(&WRONG_LINES).as_bytes().to_vec();
    }
}

/// Two lines with no line feed between them.
fn join_lines(random: &mut Random, text: &mut Text) {
    if let Some(place) = place_in(random, text) {
        let line = text.lines.remove(place);
        if let Some(next) = text.lines.get_mut(place) {
            *next = [line, next.clone()].concat().into();
        }
    }
}

fn split_line(random: &mut Random, text: &mut Text) {
    if let Some(line) = line_in(random, text) {
        let gap = gap_in(random, line);
        line.insert(gap, b'\n');
    }
}

fn white_space(random: &mut Random) -> u8 {
    if random.chance(2) {
        b' '
    } else {
        *random.pick(b"\t\r\x0b\x0c\xa0")
    }
}

/// At the front, before the semicolon, after the comma, behind the line, or anywhere else.
fn white_space_more(random: &mut Random, text: &mut Text) {
    if let Some(line) = line_in(random, text) {
        let mark = *random.pick(b" ;,[");
        let marked = line.iter().position(|&byte| byte == mark);
        let gap = match marked {
            Some(place) if random.chance(2) => place + random.below(2),
            _ => gap_in(random, line),
        };
        line.insert(gap, white_space(random));
    }
}

fn white_space_instead(random: &mut Random, text: &mut Text) {
    if let Some(line) = line_in(random, text) {
        let other = white_space(random);
        let spaces = line.iter_mut().filter(|byte| **byte == b' ');
        spaces.for_each(|space| *space = other);
    }
}

fn without_space(random: &mut Random, text: &mut Text) {
    if let Some(line) = line_in(random, text) {
        line.retain(|&byte| byte != b' ');
    }
}

fn white_space_at_end(random: &mut Random, text: &mut Text) {
    if let Some(line) = line_in(random, text) {
        line.push(white_space(random));
    }
}

fn comment_at_end(random: &mut Random, text: &mut Text) {
    if let Some(line) = line_in(random, text) {
        line.extend_from_slice(random.pick(&[" // h", "//", " /* */"]).as_bytes());
    }
}

/// A letter of the line, or all of them.
fn upper_case(random: &mut Random, text: &mut Text) {
    if let Some(line) = line_in(random, text) {
        let place = random.below(line.len().max(1));
        match line.get_mut(place) {
            Some(byte) if random.chance(2) => byte.make_ascii_uppercase(),
            _ => line.make_ascii_uppercase(),
        }
    }
}

/// Another qubit, the other qubit, the same one twice, or another number elsewhere.
fn other_digit(random: &mut Random, text: &mut Text) {
    if let Some(line) = line_in(random, text) {
        let digits: Vec<_> = line
            .iter_mut()
            .filter(|byte| byte.is_ascii_digit())
            .collect();
        let chosen = random.below(digits.len().max(1));
        if let Some(digit) = digits.into_iter().nth(chosen) {
            *digit = *random.pick(b"001123456789");
        }
    }
}

fn other_name(random: &mut Random, text: &mut Text) {
    if let Some(line) = line_in(random, text) {
        let end = line.iter().position(|&byte| byte == b' ');
        let name = random.pick(&NAMES).bytes();
        line.splice(..end.unwrap_or(0), name);
    }
}

fn other_operands(random: &mut Random, text: &mut Text) {
    if let Some(line) = line_in(random, text) {
        let end = line.iter().position(|&byte| byte == b' ');
        line.truncate(end.unwrap_or(0));
        let operands = random.pick(&OPERANDS);
        line.extend_from_slice(format!(" {operands};").as_bytes());
    }
}

fn without_semicolon(random: &mut Random, text: &mut Text) {
    if let Some(line) = line_in(random, text) {
        line.pop();
    }
}

/// A statement behind a line, with a space between them or none.
fn two_in_a_line(random: &mut Random, text: &mut Text) {
    if let Some(line) = line_in(random, text) {
        let (_, statement) = random.pick(&STATEMENTS);
        if random.chance(2) {
            line.push(b' ');
        }
        line.extend_from_slice(statement.as_bytes());
    }
}

fn random_line(random: &mut Random, text: &mut Text) {
    if let Some(line) = line_in(random, text) {
        random.fill(line);
    }
}

/// As a rule the last line's line feed.
fn without_last_byte(_: &mut Random, bytes: &mut Vec<u8>) {
    bytes.pop();
}

fn without_a_byte(random: &mut Random, bytes: &mut Vec<u8>) {
    if !bytes.is_empty() {
        bytes.remove(random.below(bytes.len()));
    }
}

fn near_or_any(random: &mut Random) -> u8 {
    if random.chance(2) {
        *random.pick(&NEAR_BYTES)
    } else {
        random.byte()
    }
}

fn byte_more(random: &mut Random, bytes: &mut Vec<u8>) {
    let gap = gap_in(random, bytes);
    bytes.insert(gap, near_or_any(random));
}

fn byte_instead(random: &mut Random, bytes: &mut Vec<u8>) {
    if !bytes.is_empty() {
        let place = random.below(bytes.len());
        bytes[place] = near_or_any(random);
    }
}

fn repeat_byte(random: &mut Random, bytes: &mut Vec<u8>) {
    if !bytes.is_empty() {
        let place = random.below(bytes.len());
        bytes.insert(place, bytes[place]);
    }
}

fn swap_neighbours(random: &mut Random, bytes: &mut Vec<u8>) {
    if bytes.len() > 1 {
        let place = random.below(bytes.len() - 1);
        bytes.swap(place, place + 1);
    }
}

fn other_line_ends(random: &mut Random, bytes: &mut Vec<u8>) {
    let ends: [&[u8]; 6] = [b"\r\n", b"\r", b"\n\r", b"\n\n", b"\0", b""];
    let end = random.pick(&ends);
    let lines: Vec<&[u8]> = bytes.split(|&byte| byte == b'\n').collect();
    *bytes = lines.join(*end);
}

fn line_feed_more(random: &mut Random, bytes: &mut Vec<u8>) {
    let gap = gap_in(random, bytes);
    bytes.insert(gap, b'\n');
}

fn byte_order_mark(_: &mut Random, bytes: &mut Vec<u8>) {
    bytes.splice(..0, "\u{feff}".bytes());
}

fn text_again(_: &mut Random, bytes: &mut Vec<u8>) {
    bytes.extend_from_within(..);
}
