//! Words, numbers and gaps: how tokens become the bytes of a source.

use super::random::Random;

/// A token as it is written. Damage may make it anything.
pub type Token = Vec<u8>;

/// Words that the grammar knows: all of them are names too.
const KEYWORDS: [&str; 17] = [
    "header", "first", "after", "by", "end", "table", "look", "sets", "lines", "do", "set", "add",
    "apply", "if", "else", "x", "name",
];

/// Words that look like numbers at first.
const ODD_WORDS: [&str; 9] = [
    "8021q", "0x", "0xg", "0X10", "1f", "00x1", "0x1g", "9z", "0b1",
];

const LETTERS_AND_DIGITS: &[u8] = b"abcdefghijklmnopqrstuvwxyzABCDEFGHIJKLMNOPQRSTUVWXYZ0123456789";

/// How the names of a source look.
#[derive(Clone, Copy)]
pub enum NameStyle {
    /// Of few letters, so that headers share the names of fields.
    Short,
    Keywords,
    Odd,
    /// Often as long as names may be.
    Long,
    Any,
}

impl NameStyle {
    pub fn any(random: &mut Random) -> Self {
        *random.pick(&[
            NameStyle::Short,
            NameStyle::Short,
            NameStyle::Keywords,
            NameStyle::Odd,
            NameStyle::Long,
            NameStyle::Any,
        ])
    }
}

pub fn is_number(run: &str) -> bool {
    let all = |digits: &str, is_digit: fn(&u8) -> bool| {
        !digits.is_empty() && digits.as_bytes().iter().all(is_digit)
    };
    all(run, u8::is_ascii_digit)
        || run
            .strip_prefix("0x")
            .is_some_and(|digits| all(digits, u8::is_ascii_hexdigit))
}

/// A word of so many characters.
pub fn word_of_length(random: &mut Random, length: usize) -> String {
    loop {
        let word: String = (0..length)
            .map(|_| char::from(*random.pick(LETTERS_AND_DIGITS)))
            .collect();
        if !is_number(&word) {
            return word;
        }
    }
}

/// A name that may be declared anywhere but where it is taken. It may be `out`.
pub fn name(random: &mut Random, style: NameStyle) -> String {
    match style {
        // With a digit now and then, since there may be more fields in a header than letters here.
        NameStyle::Short if random.chance(70) => char::from(*random.pick(b"abcdfgh")).to_string(),
        NameStyle::Short => {
            format!(
                "{}{}",
                char::from(*random.pick(b"abcdfgh")),
                random.below(30)
            )
        }
        NameStyle::Keywords if random.chance(60) => random.pick(&KEYWORDS).to_string(),
        NameStyle::Odd if random.chance(60) => random.pick(&ODD_WORDS).to_string(),
        NameStyle::Long if random.chance(50) => word_of_length(random, 24),
        NameStyle::Any if random.chance(5) => "out".to_string(),
        _ => {
            let length = random.between(1, 24);
            word_of_length(random, length)
        }
    }
}

/// A number as it may be written: decimal or hexadecimal, with zeros in front at times.
pub fn number(random: &mut Random, value: u64) -> String {
    let zeros = if random.chance(5) {
        random.between(1, 30)
    } else {
        0
    };
    let zeros = "0".repeat(zeros);
    match random.below(6) {
        0 => format!("0x{zeros}{value:x}"),
        1 => format!("0x{zeros}{value:X}"),
        2 => {
            // Both cases in one number.
            let digits: String = format!("{value:x}")
                .chars()
                .map(|digit| {
                    if random.chance(50) {
                        digit.to_ascii_uppercase()
                    } else {
                        digit
                    }
                })
                .collect();
            format!("0x{zeros}{digits}")
        }
        _ => format!("{zeros}{value}"),
    }
}

/// How gaps between tokens are written.
#[derive(Clone, Copy)]
enum GapStyle {
    /// Only where two runs would touch.
    Least,
    Plain,
    /// White space of all kinds and comments with any bytes.
    Odd,
}

/// Writes the tokens with gaps between them.
pub fn render(random: &mut Random, tokens: &[Token]) -> Vec<u8> {
    let style = *random.pick(&[
        GapStyle::Least,
        GapStyle::Plain,
        GapStyle::Plain,
        GapStyle::Odd,
    ]);
    let mut text = Vec::new();
    let mut previous: &[u8] = b"";
    for token in tokens {
        gap(random, style, previous, token, &mut text);
        text.extend_from_slice(token);
        previous = token;
    }
    match random.below(6) {
        0 => {}
        1 => text.extend_from_slice(b" // the end"),
        2 => text.extend_from_slice(b"\r\n\t "),
        3 => odd_gap(random, &mut text),
        _ => text.push(b'\n'),
    }
    text
}

fn gap(random: &mut Random, style: GapStyle, previous: &[u8], next: &[u8], text: &mut Vec<u8>) {
    let is_run = |byte: Option<&u8>| byte.is_some_and(u8::is_ascii_alphanumeric);
    let touch = is_run(previous.last()) && is_run(next.first());
    let start = text.len();
    match style {
        GapStyle::Least => {}
        GapStyle::Plain if previous.is_empty() => {}
        GapStyle::Plain => match (previous, next) {
            (b"{" | b"}", _) | (_, b"}") => text.push(b'\n'),
            (_, b";" | b"," | b".") | (b".", _) => {}
            (b";", _) if random.chance(70) => text.push(b'\n'),
            _ => text.push(b' '),
        },
        GapStyle::Odd => {
            if random.chance(40) {
                odd_gap(random, text);
            }
        }
    }
    if touch && text.len() == start {
        text.push(b' ');
    }
}

fn odd_gap(random: &mut Random, text: &mut Vec<u8>) {
    for _ in 0..random.between(1, 3) {
        match random.below(7) {
            0 => text.push(b'\t'),
            1 => text.push(b'\r'),
            2 => text.push(b'\n'),
            3 => text.extend_from_slice(b"\r\n"),
            4 => {
                text.extend_from_slice(b"//");
                match random.below(4) {
                    0 => {}
                    1 => text.extend_from_slice(b" first h; } /* // \r do { }"),
                    2 => text.extend_from_slice("\u{fc}ber".as_bytes()),
                    _ => {
                        for _ in 0..random.between(1, 12) {
                            let byte = random.byte();
                            text.push(if byte == b'\n' { 0 } else { byte });
                        }
                    }
                }
                text.push(b'\n');
            }
            _ => text.push(b' '),
        }
    }
}
