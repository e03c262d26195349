//! Cuts a source into tokens: section 3.1 of the reference.

#[derive(Clone, Copy, Debug, PartialEq, Eq)]
pub enum Sign {
    OpenBrace,
    CloseBrace,
    Semicolon,
    Colon,
    Comma,
    Dot,
    Equals,
    EqualsEquals,
    Less,
}

#[derive(Clone, Copy, Debug, PartialEq, Eq)]
pub enum Kind<'source> {
    Word(&'source str),
    /// None stands for every value of 2^32 or more.
    Number(Option<u32>),
    Sign(Sign),
    /// A byte that is part of no token: it is never awaited.
    Unknown,
    End,
}

#[derive(Clone, Copy, Debug, PartialEq, Eq)]
pub struct Token<'source> {
    pub kind: Kind<'source>,
    pub offset: usize,
}

pub struct Scanner<'source> {
    source: &'source [u8],
    position: usize,
}

impl<'source> Scanner<'source> {
    pub fn new(source: &'source [u8]) -> Self {
        Scanner {
            source,
            position: 0,
        }
    }

    /// The next token; behind the last one, the end again and again.
    pub fn next(&mut self) -> Token<'source> {
        self.skip_gap();
        let offset = self.position;
        let Some(&first) = self.source.get(offset) else {
            return Token {
                kind: Kind::End,
                offset,
            };
        };
        let kind = if first.is_ascii_alphanumeric() {
            self.run()
        } else {
            self.position += 1;
            match first {
                b'{' => Kind::Sign(Sign::OpenBrace),
                b'}' => Kind::Sign(Sign::CloseBrace),
                b';' => Kind::Sign(Sign::Semicolon),
                b':' => Kind::Sign(Sign::Colon),
                b',' => Kind::Sign(Sign::Comma),
                b'.' => Kind::Sign(Sign::Dot),
                b'<' => Kind::Sign(Sign::Less),
                b'=' if self.source.get(self.position) == Some(&b'=') => {
                    self.position += 1;
                    Kind::Sign(Sign::EqualsEquals)
                }
                b'=' => Kind::Sign(Sign::Equals),
                _ => Kind::Unknown,
            }
        };
        Token { kind, offset }
    }

    /// Goes past white space and comments.
    fn skip_gap(&mut self) {
        loop {
            match &self.source[self.position..] {
                [b' ' | b'\t' | b'\r' | b'\n', ..] => self.position += 1,
                [b'/', b'/', rest @ ..] => {
                    let length = rest.iter().position(|&byte| byte == b'\n');
                    self.position += 2 + length.unwrap_or(rest.len());
                }
                _ => return,
            }
        }
    }

    fn run(&mut self) -> Kind<'source> {
        let rest = &self.source[self.position..];
        let length = rest.iter().position(|byte| !byte.is_ascii_alphanumeric());
        let run = &rest[..length.unwrap_or(rest.len())];
        self.position += run.len();
        if run.iter().all(u8::is_ascii_digit) {
            return Kind::Number(value(run, 10));
        }
        if let [b'0', b'x', digits @ ..] = run
            && !digits.is_empty()
            && digits.iter().all(u8::is_ascii_hexdigit)
        {
            return Kind::Number(value(digits, 16));
        }
        Kind::Word(std::str::from_utf8(run).expect("letters and digits are ASCII"))
    }
}

/// The value of a row of digits, or None from 2^32 on, however many digits there are.
fn value(digits: &[u8], base: u32) -> Option<u32> {
    let mut value: u32 = 0;
    for &digit in digits {
        let digit = (digit as char)
            .to_digit(base)
            .expect("the run has digits of this base only");
        value = value.checked_mul(base)?.checked_add(digit)?;
    }
    Some(value)
}

#[cfg(test)]
mod tests {
    use super::*;

    fn kinds(source: &str) -> Vec<Kind<'_>> {
        let mut scanner = Scanner::new(source.as_bytes());
        let mut kinds = Vec::new();
        loop {
            match scanner.next().kind {
                Kind::End => return kinds,
                kind => kinds.push(kind),
            }
        }
    }

    #[test]
    fn runs() {
        for word in ["8021q", "0x", "0xg", "0X10", "x0", "a"] {
            assert_eq!(kinds(word), [Kind::Word(word)]);
        }
        for (number, value) in [
            ("007", 7),
            ("0xfF", 255),
            ("0x0", 0),
            ("4294967295", u32::MAX),
        ] {
            assert_eq!(kinds(number), [Kind::Number(Some(value))]);
        }
        assert_eq!(kinds("0x0000000000000000000010"), [Kind::Number(Some(16))]);
        assert_eq!(kinds("4294967296"), [Kind::Number(None)]);
        assert_eq!(kinds("0x100000000"), [Kind::Number(None)]);
        assert_eq!(kinds(&"9".repeat(1000)), [Kind::Number(None)]);
    }

    #[test]
    fn signs_and_other_bytes() {
        use Kind::*;
        assert_eq!(
            kinds("12.5"),
            [Number(Some(12)), Sign(self::Sign::Dot), Number(Some(5))]
        );
        assert_eq!(
            kinds("= ="),
            [Sign(self::Sign::Equals), Sign(self::Sign::Equals)]
        );
        assert_eq!(
            kinds("==="),
            [Sign(self::Sign::EqualsEquals), Sign(self::Sign::Equals)]
        );
        assert_eq!(kinds("a_b"), [Word("a"), Unknown, Word("b")]);
        assert_eq!(kinds("/ /"), [Unknown, Unknown]);
        assert_eq!(kinds("\u{e4}"), [Unknown, Unknown]);
    }

    #[test]
    fn gaps() {
        assert_eq!(kinds("// a\r b\nc"), [Kind::Word("c")]);
        assert_eq!(kinds("a//b"), [Kind::Word("a")]);
        assert_eq!(kinds("\t \r\n//"), []);
        let mut scanner = Scanner::new(b" a // b");
        assert_eq!(scanner.next().offset, 1);
        assert_eq!(
            scanner.next(),
            Token {
                kind: Kind::End,
                offset: 7
            }
        );
        assert_eq!(
            scanner.next(),
            Token {
                kind: Kind::End,
                offset: 7
            }
        );
    }
}
