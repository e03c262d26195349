//! Damage to sources and to streams of frames.

use super::random::Random;
use super::text::{self, Token};

/// Tokens that are put where others are awaited.
const STRAY: [&str; 30] = [
    "{",
    "}",
    ";",
    ":",
    ",",
    ".",
    "=",
    "==",
    "<",
    "/",
    "//",
    "$",
    "_",
    "-",
    "0",
    "1",
    "33",
    "4294967296",
    "0x",
    "out",
    "end",
    "else",
    "if",
    "do",
    "first",
    "header",
    "set",
    "h",
    "\u{e4}",
    "\0",
];

/// Bytes that are told apart by the rules for tokens.
const TELLING: &[u8] = b" \t\r\n/{};:,.=<09axAXgfF_\0\x0b\x0c\x7f\x80\xa0\xff";

/// Numbers that are at or just past some limit.
const NEAR_LIMITS: [&str; 12] = [
    "0",
    "1",
    "7",
    "8",
    "31",
    "32",
    "33",
    "256",
    "257",
    "4294967295",
    "4294967296",
    "0x100000000",
];

/// Damages a source by its statements and items, by its tokens, or by its bytes. Damage of the first
/// kind mostly keeps the grammar, and so it reaches the other rules.
pub fn source(random: &mut Random, mut tokens: Vec<Token>) -> Vec<u8> {
    let level = random.weighted(&[50, 30, 20]);
    match level {
        0 => (0..random.between(1, 3)).for_each(|_| damage_spans(random, &mut tokens)),
        1 => (0..random.between(1, 2)).for_each(|_| damage_tokens(random, &mut tokens)),
        _ => {}
    }
    let mut text = text::render(random, &tokens);
    if level == 2 {
        (0..random.between(1, 3)).for_each(|_| damage_bytes(random, &mut text));
    }
    text
}

/// Drops, repeats, copies or moves something that ends in a `;` or a closing brace.
fn damage_spans(random: &mut Random, tokens: &mut Vec<Token>) {
    let is_boundary = |token: &Token| matches!(&token[..], b"{" | b"}" | b";");
    let boundaries: Vec<usize> = (0..tokens.len())
        .filter(|&n| n == 0 || is_boundary(&tokens[n - 1]))
        .collect();
    if boundaries.is_empty() {
        return;
    }
    let start = *random.pick(&boundaries);
    let end = start + span_length(&tokens[start..]);
    // Mostly to where something of its kind stands.
    let alike: Vec<usize> = boundaries
        .iter()
        .copied()
        .filter(|&n| place_of(tokens.get(n)) == place_of(tokens.get(start)))
        .collect();
    let targets = if random.chance(90) {
        &alike
    } else {
        &boundaries
    };
    let target = *random.pick(targets);
    let span = tokens[start..end].to_vec();
    match random.below(7) {
        0 => drop(tokens.drain(start..end)),
        1 => drop(tokens.splice(start..start, span)),
        2 => drop(tokens.splice(target..target, span)),
        3 => {
            tokens.drain(start..end);
            let target = target.min(tokens.len());
            tokens.splice(target..target, span);
        }
        4 => replace_number(random, tokens),
        5 if place_of(tokens.get(start)) == Place::Statement => {
            // Blocks around a statement, perhaps more than there may be.
            let count = random.between(1, 9);
            let opening = ["if", "out", "==", "1", "{"].map(Token::from).to_vec();
            tokens.splice(end..end, vec![Token::from("}"); count]);
            tokens.splice(start..start, vec![opening; count].concat());
        }
        _ => replace_alike(random, tokens),
    }
}

/// Where in the grammar something stands, by its first token.
#[derive(PartialEq, Eq)]
enum Place {
    Item,
    Statement,
    Other,
}

fn place_of(token: Option<&Token>) -> Place {
    match token.map(|token| &token[..]) {
        Some(b"header" | b"first" | b"after" | b"table" | b"do") => Place::Item,
        Some(b"set" | b"add" | b"apply" | b"if") => Place::Statement,
        _ => Place::Other,
    }
}

/// How many tokens there are up to the `;` or the closing brace that ends what begins here.
fn span_length(tokens: &[Token]) -> usize {
    let mut depth = 0;
    for (index, token) in tokens.iter().enumerate() {
        match &token[..] {
            b"{" => depth += 1,
            b"}" if depth == 0 => return index,
            b"}" => depth -= 1,
            _ => {}
        }
        if depth == 0 && matches!(&token[..], b"}" | b";") {
            return index + 1;
        }
    }
    tokens.len()
}

fn replace_number(random: &mut Random, tokens: &mut [Token]) {
    let numbers: Vec<usize> = (0..tokens.len())
        .filter(|&n| class(&tokens[n]) == 0)
        .collect();
    if !numbers.is_empty() {
        tokens[*random.pick(&numbers)] = random.pick(&NEAR_LIMITS).as_bytes().to_vec();
    }
}

/// Puts a word in the place of a word, or a number in that of a number.
fn replace_alike(random: &mut Random, tokens: &mut [Token]) {
    let runs: Vec<usize> = (0..tokens.len())
        .filter(|&n| class(&tokens[n]) < 2)
        .collect();
    if runs.is_empty() {
        return;
    }
    let place = *random.pick(&runs);
    let wanted = class(&tokens[place]);
    let like: Vec<&Token> = tokens
        .iter()
        .filter(|token| class(token) == wanted)
        .collect();
    tokens[place] = (*random.pick(&like)).clone();
}

fn damage_tokens(random: &mut Random, tokens: &mut Vec<Token>) {
    if tokens.is_empty() {
        return;
    }
    let place = random.below(tokens.len());
    match random.below(8) {
        0 => drop(tokens.remove(place)),
        1 => tokens.insert(place, tokens[place].clone()),
        2 if place > 0 => tokens.swap(place, place - 1),
        3 => {
            let other = random.below(tokens.len());
            tokens.swap(place, other);
        }
        4 => tokens[place] = random.pick(&STRAY).as_bytes().to_vec(),
        5 => tokens.insert(place, random.pick(&STRAY).as_bytes().to_vec()),
        6 => tokens[place] = tokens[random.below(tokens.len())].clone(),
        _ => replace_alike(random, tokens),
    }
}

/// 0 for a number, 1 for a word, 2 for anything else.
fn class(token: &Token) -> usize {
    match std::str::from_utf8(token) {
        Ok(run) if text::is_number(run) => 0,
        Ok(run) if run.bytes().all(|byte| byte.is_ascii_alphanumeric()) => 1,
        _ => 2,
    }
}

fn damage_bytes(random: &mut Random, bytes: &mut Vec<u8>) {
    let place = random.between(0, bytes.len());
    let telling = if random.chance(70) {
        *random.pick(TELLING)
    } else {
        random.byte()
    };
    match random.below(6) {
        0 | 1 if place < bytes.len() => bytes[place] = telling,
        2 if place < bytes.len() => {
            bytes.remove(place);
        }
        3 => bytes.truncate(place),
        4 if place < bytes.len() => bytes[place] ^= 1 << random.below(8),
        _ => bytes.insert(place, telling),
    }
}

/// Damages a stream by its frames, by its bytes, or both.
pub fn frames(random: &mut Random, mut frames: Vec<Vec<u8>>) -> Vec<u8> {
    let by_frames = random.chance(60) && !frames.is_empty();
    if by_frames {
        for _ in 0..random.between(1, 3) {
            damage_frames(random, &mut frames);
        }
    }
    let mut bytes = frames.concat();
    if !by_frames || random.chance(20) {
        for _ in 0..random.between(1, 3) {
            damage_bytes(random, &mut bytes);
        }
    }
    bytes
}

fn damage_frames(random: &mut Random, frames: &mut Vec<Vec<u8>>) {
    // The frame of the source, which comes early, is spared more often than not, as nothing can be
    // seen without a program.
    let mut place = random.below(frames.len());
    while frames[place].first() == Some(&1) && random.chance(60) {
        place = random.below(frames.len());
    }
    let frame = &mut frames[place];
    match random.below(9) {
        0 => {
            let other = random.below(frames.len());
            frames[place] = frames[other].clone();
        }
        1 => {
            let other = random.below(frames.len());
            frames.swap(place, other);
        }
        2 => {
            let copy = frame.clone();
            frames.insert(place, copy);
        }
        3 => frame.clear(),
        4 => frame.truncate(random.below(frame.len() + 1)),
        // A length that is not that of the bytes.
        5 | 6 if frame.len() > 2 => {
            let byte = if frame[0] == 3 {
                2
            } else {
                4.min(frame.len() - 1)
            };
            let change = *random.pick(&[1, 2, 5, 100, 254, 255]);
            frame[byte] = frame[byte].wrapping_add(change);
            if random.chance(15) {
                frame[1] = random.byte();
            }
        }
        7 if !frame.is_empty() => {
            frame[0] = *random.pick(&[0, 1, 2, 3, 4, 5, 16, 17, 18, 255]);
        }
        _ => {
            let length = random.between(1, 12);
            let stray = (0..length).map(|_| random.byte()).collect();
            frames.insert(place, stray);
        }
    }
}
