//! Damage to the bytes of a text.

use super::any_valid;
use crate::random::Random;

/// Bytes that the form of a text turns on.
const BYTES: &[u8] = b"0123456789\t\n.:-+ \r\0aepsxz\x7f\x80\xff";

/// Numbers at the limits of the form and of the checks.
const NUMBERS: [&str; 26] = [
    "0", "1", "2", "3", "4", "5", "32", "33", "97", "98", "250", "251", "252", "253", "256", "65535", "65536", "99999", "100000", "00",
    "01", "007", "", "-1", "+1", "1e1",
];

/// A valid text with one to three pieces of damage.
pub fn text(random: &mut Random) -> Vec<u8> {
    let mut text = any_valid(random).text();
    for _ in 0..random.pick(&[1, 1, 1, 2, 3]) {
        text = damage(random, text);
    }
    text
}

/// One piece of damage.
fn damage(random: &mut Random, mut text: Vec<u8>) -> Vec<u8> {
    let at = random.below(text.len() + 1);
    match random.below(12) {
        0 if at < text.len() => text[at] = random.byte(),
        1 if at < text.len() => text[at] = random.pick(BYTES),
        2 if at < text.len() => text[at] ^= 1 << random.below(8),
        3 if at < text.len() => drop(text.remove(at)),
        4 => text.insert(at, random.pick(BYTES)),
        5 => text.truncate(at),
        6 => text.extend_from_slice(random.pick(&[&b"\n"[..], b"end\t0\n", b"x", b"\0", b"poly\t1:0\n", b"\t"])),
        7 => return number_changed(random, text),
        8 => return lines_changed(random, text),
        9 => return fields_changed(random, &text),
        10 if at < text.len() => {
            let end = (at + random.between(1, 12)).min(text.len());
            text.drain(at..end);
        }
        _ => return digit_changed(random, text),
    }
    text
}

/// Another number in the place of one of the text's.
fn number_changed(random: &mut Random, text: Vec<u8>) -> Vec<u8> {
    let starts: Vec<usize> = (1..text.len()).filter(|&i| text[i].is_ascii_digit() && !text[i - 1].is_ascii_digit()).collect();
    if starts.is_empty() {
        return text;
    }
    let start = random.pick(&starts);
    let digits = text[start..].iter().take_while(|byte| byte.is_ascii_digit()).count();
    let number = random.pick(&NUMBERS);
    [&text[..start], number.as_bytes(), &text[start + digits..]].concat()
}

/// Another digit in the place of one of the text's.
fn digit_changed(random: &mut Random, mut text: Vec<u8>) -> Vec<u8> {
    let digits: Vec<usize> = (0..text.len()).filter(|&i| text[i].is_ascii_digit()).collect();
    if !digits.is_empty() {
        text[random.pick(&digits)] = random.pick(b"0123456789");
    }
    text
}

/// A line doubled, moved, dropped or swapped with another.
fn lines_changed(random: &mut Random, text: Vec<u8>) -> Vec<u8> {
    let mut lines: Vec<Vec<u8>> = text.split_inclusive(|&byte| byte == b'\n').map(<[u8]>::to_vec).collect();
    if lines.is_empty() {
        return text;
    }
    let (a, b) = (random.below(lines.len()), random.below(lines.len()));
    match random.below(5) {
        0 => lines.insert(a, lines[a].clone()),
        1 => lines.insert(b, lines[a].clone()),
        2 => drop(lines.remove(a)),
        3 => lines.swap(a, b),
        _ => lines
            .insert(a, random.pick(&[&b"stairs\t0\n"[..], b"runs\t1\n", b"basis\tgrevlex\t2\t1\n", b"\n", b"poly\n", b"end\n"]).to_vec()),
    }
    lines.concat()
}

/// A field of a line doubled, dropped or swapped with another.
fn fields_changed(random: &mut Random, text: &[u8]) -> Vec<u8> {
    let mut lines: Vec<Vec<u8>> = text.split(|&byte| byte == b'\n').map(<[u8]>::to_vec).collect();
    let at = random.below(lines.len());
    let mut fields: Vec<Vec<u8>> = lines[at].split(|&byte| byte == b'\t').map(<[u8]>::to_vec).collect();
    let (a, b) = (random.below(fields.len()), random.below(fields.len()));
    match random.below(4) {
        0 => fields.insert(a, fields[a].clone()),
        1 => drop(fields.remove(a)),
        2 => fields.insert(a, Vec::new()),
        _ => fields.swap(a, b),
    }
    lines[at] = fields.join(&b'\t');
    lines.join(&b'\n')
}

/// A text with one fault of form.
pub fn bad_form(random: &mut Random, text: Vec<u8>) -> Vec<u8> {
    let missing_end = text.len() - text.iter().rev().skip(1).take_while(|&&byte| byte != b'\n').count() - 1;
    match random.below(8) {
        0 => text[..text.len() - 1].to_vec(),
        1 => text[..missing_end].to_vec(),
        2 => [&text[..], random.pick(&[&b"\n"[..], b"end\t1\n", b" ", b"\xff"])].concat(),
        3 => fields_changed(random, &text),
        4 => lines_changed(random, text),
        5 => {
            let mut text = text;
            let separators: Vec<usize> = (0..text.len()).filter(|&i| b"\t\n:.".contains(&text[i])).collect();
            text[random.pick(&separators)] = random.pick(b"\t\n:. ");
            text
        }
        6 => {
            let word = random.pick(&["Grevlex", "grevlex1", "grevlexab", "", "GREVLEX", "grev lex", "greVlex"]);
            let rest = &text[b"basis\tgrevlex".len()..];
            [b"basis\t", word.as_bytes(), rest].concat()
        }
        _ => {
            let mut text = text;
            text.insert(random.below(8).min(text.len()), random.pick(BYTES));
            text
        }
    }
}
