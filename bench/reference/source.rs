//! Reads a source in one pass, to a program or to its first fault: sections 3.2 to 3.5.
//!
//! The reader looks one token ahead, and every check of a token is made when that token is taken,
//! the lowest code first. So the first fault that is met is the one to answer.

use crate::program::*;
use crate::token::{Kind, Scanner, Sign, Token};

/// Reads a source, without placing it.
pub fn read(source: &[u8]) -> Result<Program, Fault> {
    let mut reader = Reader::new(source);
    while reader.item()? {}
    reader.finish()
}

/// A name and where it stands.
#[derive(Clone, Copy)]
struct Name<'source> {
    text: &'source str,
    offset: usize,
}

impl Name<'_> {
    fn fault(&self, code: u8) -> Fault {
        Fault::new(code, self.offset)
    }
}

/// A choice whose header was not declared when the choice was read.
struct Promise<'source> {
    header: usize,
    choice: usize,
    name: Name<'source>,
}

/// Which tables may have been applied on some path, one bit for each.
type Applied = u32;

struct Block {
    statements: Vec<Statement>,
    end: usize,
}

struct Reader<'source> {
    scanner: Scanner<'source>,
    /// The token that is to be read next.
    token: Token<'source>,
    fields: Vec<Field>,
    headers: Vec<Header>,
    tables: Vec<Table>,
    promises: Vec<Promise<'source>>,
    first: Option<usize>,
    block: Option<Block>,
}

impl<'source> Reader<'source> {
    fn new(source: &'source [u8]) -> Self {
        let mut scanner = Scanner::new(source);
        let token = scanner.next();
        let out = Field {
            header: None,
            name: "out".to_string(),
            width: 8,
        };
        Reader {
            scanner,
            token,
            fields: vec![out],
            headers: Vec::new(),
            tables: Vec::new(),
            promises: Vec::new(),
            first: None,
            block: None,
        }
    }

    // Tokens.

    fn advance(&mut self) -> Token<'source> {
        std::mem::replace(&mut self.token, self.scanner.next())
    }

    fn not_awaited(&self) -> Fault {
        Fault::new(2, self.token.offset)
    }

    fn is_sign(&self, sign: Sign) -> bool {
        self.token.kind == Kind::Sign(sign)
    }

    fn is_word(&self, word: &str) -> bool {
        self.token.kind == Kind::Word(word)
    }

    /// Takes this sign, and gives its offset.
    fn sign(&mut self, sign: Sign) -> Result<usize, Fault> {
        if !self.is_sign(sign) {
            return Err(self.not_awaited());
        }
        Ok(self.advance().offset)
    }

    /// Takes this sign if it stands here.
    fn has_sign(&mut self, sign: Sign) -> bool {
        let here = self.is_sign(sign);
        if here {
            self.advance();
        }
        here
    }

    fn keyword(&mut self, word: &str) -> Result<(), Fault> {
        if !self.is_word(word) {
            return Err(self.not_awaited());
        }
        self.advance();
        Ok(())
    }

    fn name(&mut self) -> Result<Name<'source>, Fault> {
        let Kind::Word(text) = self.token.kind else {
            return Err(self.not_awaited());
        };
        Ok(Name {
            text,
            offset: self.advance().offset,
        })
    }

    /// Takes a number below 2^32, and gives its offset too.
    fn number(&mut self) -> Result<(u32, usize), Fault> {
        let Kind::Number(value) = self.token.kind else {
            return Err(self.not_awaited());
        };
        let offset = self.advance().offset;
        Ok((value.ok_or(Fault::new(4, offset))?, offset))
    }

    // Names.

    fn find_header(&self, name: Name) -> Result<usize, Fault> {
        let found = self
            .headers
            .iter()
            .position(|header| header.name == name.text);
        found.ok_or(name.fault(3))
    }

    fn find_table(&self, name: Name) -> Result<usize, Fault> {
        let found = self.tables.iter().position(|table| table.name == name.text);
        found.ok_or(name.fault(3))
    }

    fn find_field_of(&self, header: usize, name: Name) -> Result<usize, Fault> {
        let mut numbers = self.headers[header].fields.clone();
        let found = numbers.find(|&number| self.fields[number].name == name.text);
        found.ok_or(name.fault(3))
    }

    /// `out`, or the one field of this name. No header has a field called `out`, so all fields can
    /// be searched alike.
    fn find_bare_field(&self, name: Name) -> Result<usize, Fault> {
        let mut numbers = (0..self.fields.len()).filter(|&n| self.fields[n].name == name.text);
        match (numbers.next(), numbers.next()) {
            (Some(number), None) => Ok(number),
            _ => Err(name.fault(3)),
        }
    }

    /// Checks a name that is declared: taken, too long, or one too many, in the order of the codes.
    fn declare(
        &self,
        name: Name,
        taken: bool,
        count: usize,
        limit: usize,
    ) -> Result<String, Fault> {
        if taken {
            Err(name.fault(3))
        } else if name.text.len() > NAME_LIMIT {
            Err(name.fault(4))
        } else if count >= limit {
            Err(name.fault(9))
        } else {
            Ok(name.text.to_string())
        }
    }

    fn field(&mut self) -> Result<usize, Fault> {
        self.field_with_room(true)
    }

    /// Reads a field. Without room for it, its first name is at fault, unless that is unknown.
    fn field_with_room(&mut self, room: bool) -> Result<usize, Fault> {
        let name = self.name()?;
        let found = if self.is_sign(Sign::Dot) {
            Found::Header(self.find_header(name)?)
        } else {
            Found::Field(self.find_bare_field(name)?)
        };
        if !room {
            return Err(name.fault(9));
        }
        match found {
            Found::Field(number) => Ok(number),
            Found::Header(header) => {
                self.sign(Sign::Dot)?;
                let name = self.name()?;
                self.find_field_of(header, name)
            }
        }
    }

    /// Reads fields up to the `;` behind them.
    fn field_list(&mut self, limit: usize) -> Result<Vec<usize>, Fault> {
        let mut fields = Vec::new();
        if self.has_sign(Sign::Semicolon) {
            return Ok(fields);
        }
        loop {
            fields.push(self.field_with_room(fields.len() < limit)?);
            if !self.has_sign(Sign::Comma) {
                self.sign(Sign::Semicolon)?;
                return Ok(fields);
            }
        }
    }

    fn operand(&mut self) -> Result<Operand, Fault> {
        match self.token.kind {
            Kind::Number(_) => Ok(Operand::Number(self.number()?.0)),
            _ => Ok(Operand::Field(self.field()?)),
        }
    }

    // Items.

    /// Reads one item, or tells by false that the source has ended.
    fn item(&mut self) -> Result<bool, Fault> {
        let Kind::Word(word) = self.token.kind else {
            return match self.token.kind {
                Kind::End => Ok(false),
                _ => Err(self.not_awaited()),
            };
        };
        match word {
            "first" if self.first.is_some() => return Err(self.not_awaited()),
            "do" if self.block.is_some() => return Err(self.not_awaited()),
            "header" | "first" | "after" | "table" | "do" => self.advance(),
            _ => return Err(self.not_awaited()),
        };
        match word {
            "header" => self.header()?,
            "first" => {
                let name = self.name()?;
                self.first = Some(self.find_header(name)?);
                self.sign(Sign::Semicolon)?;
            }
            "after" => self.after()?,
            "table" => self.table()?,
            _ => self.block = Some(self.block(1, &mut 0)?),
        }
        Ok(true)
    }

    fn header(&mut self) -> Result<(), Fault> {
        let name = self.name()?;
        let taken = self.find_header(name).is_ok();
        let header = self.headers.len();
        let text = self.declare(name, taken, header, HEADER_LIMIT)?;
        let start = self.fields.len();
        let mut bits = 0;
        self.sign(Sign::OpenBrace)?;
        while !self.is_sign(Sign::CloseBrace) {
            let name = self.name()?;
            let taken = name.text == "out"
                || self.fields[start..]
                    .iter()
                    .any(|field| field.name == name.text);
            let text = self.declare(name, taken, self.fields.len(), FIELD_LIMIT)?;
            let (width, offset) = self.number()?;
            if width == 0 || width > WIDTH_LIMIT {
                return Err(Fault::new(4, offset));
            }
            self.sign(Sign::Semicolon)?;
            bits += width;
            self.fields.push(Field {
                header: Some(header),
                name: text,
                width,
            });
        }
        let end = self.sign(Sign::CloseBrace)?;
        if bits == 0 || bits % 8 != 0 || bits > HEADER_BITS_LIMIT {
            return Err(Fault::new(5, end));
        }
        self.headers.push(Header {
            name: text,
            fields: start..self.fields.len(),
            bytes: bits as usize / 8,
            after: None,
        });
        Ok(())
    }

    fn after(&mut self) -> Result<(), Fault> {
        let name = self.name()?;
        let header = self.find_header(name)?;
        if self.headers[header].after.is_some() {
            return Err(name.fault(3));
        }
        self.keyword("by")?;
        let by = self.field_of(header)?;
        let mut choices = Vec::new();
        self.sign(Sign::OpenBrace)?;
        while !self.is_sign(Sign::CloseBrace) {
            let (value, offset) = self.number()?;
            if choices.len() == CHOICE_LIMIT {
                return Err(Fault::new(9, offset));
            }
            self.sign(Sign::Colon)?;
            let name = self.name()?;
            let next = if name.text == "end" {
                None
            } else if let Ok(next) = self.find_header(name) {
                if next <= header {
                    return Err(name.fault(3));
                }
                Some(next)
            } else {
                self.promises.push(Promise {
                    header,
                    choice: choices.len(),
                    name,
                });
                None
            };
            self.sign(Sign::Semicolon)?;
            choices.push(Choice { value, next });
        }
        self.sign(Sign::CloseBrace)?;
        self.headers[header].after = Some(After { by, choices });
        Ok(())
    }

    /// Reads the field of an `after`, which belongs to this header also if it is bare.
    fn field_of(&mut self, header: usize) -> Result<usize, Fault> {
        let mut name = self.name()?;
        if self.is_sign(Sign::Dot) {
            if name.text != self.headers[header].name {
                return Err(name.fault(3));
            }
            self.sign(Sign::Dot)?;
            name = self.name()?;
        }
        self.find_field_of(header, name)
    }

    fn table(&mut self) -> Result<(), Fault> {
        let name = self.name()?;
        let taken = self.find_table(name).is_ok();
        let text = self.declare(name, taken, self.tables.len(), TABLE_LIMIT)?;
        self.sign(Sign::OpenBrace)?;
        self.keyword("look")?;
        let look = self.field_list(LOOK_LIMIT)?;
        self.keyword("sets")?;
        let sets = self.field_list(SETS_LIMIT)?;
        self.keyword("lines")?;
        let (lines, offset) = self.number()?;
        if lines == 0 || lines > LINES_LIMIT {
            return Err(Fault::new(4, offset));
        }
        self.sign(Sign::Semicolon)?;
        self.sign(Sign::CloseBrace)?;
        self.tables.push(Table {
            name: text,
            look,
            sets,
            lines: lines as usize,
        });
        Ok(())
    }

    // Statements.

    /// Reads a block. `applied` are the tables that may have been applied before it, and then those
    /// that may have been applied behind it.
    fn block(&mut self, depth: usize, applied: &mut Applied) -> Result<Block, Fault> {
        let start = self.sign(Sign::OpenBrace)?;
        if depth > DEPTH_LIMIT {
            return Err(Fault::new(7, start));
        }
        let mut statements = Vec::new();
        while !self.is_sign(Sign::CloseBrace) {
            statements.push(self.statement(depth, applied)?);
        }
        let end = self.sign(Sign::CloseBrace)?;
        Ok(Block { statements, end })
    }

    fn statement(&mut self, depth: usize, applied: &mut Applied) -> Result<Statement, Fault> {
        let offset = self.token.offset;
        let kind = if self.is_word("set") {
            self.action(Change::Set)?
        } else if self.is_word("add") {
            self.action(Change::Add)?
        } else if self.is_word("apply") {
            self.apply(applied)?
        } else if self.is_word("if") {
            self.branch(depth, applied)?
        } else {
            return Err(self.not_awaited());
        };
        Ok(Statement { offset, kind })
    }

    fn action(&mut self, change: Change) -> Result<StatementKind, Fault> {
        self.advance();
        let field = self.field()?;
        self.sign(Sign::Equals)?;
        let operand = self.operand()?;
        self.sign(Sign::Semicolon)?;
        Ok(StatementKind::Act(Action {
            change,
            field,
            operand,
        }))
    }

    fn apply(&mut self, applied: &mut Applied) -> Result<StatementKind, Fault> {
        self.advance();
        let name = self.name()?;
        let table = self.find_table(name)?;
        let bit = 1 << table;
        if *applied & bit != 0 {
            return Err(name.fault(8));
        }
        *applied |= bit;
        self.sign(Sign::Semicolon)?;
        Ok(StatementKind::Apply(table))
    }

    fn branch(&mut self, depth: usize, applied: &mut Applied) -> Result<StatementKind, Fault> {
        self.advance();
        let field = self.field()?;
        let comparison = if self.has_sign(Sign::EqualsEquals) {
            Comparison::Equal
        } else {
            self.sign(Sign::Less)?;
            Comparison::Less
        };
        let operand = self.operand()?;
        // Each block goes on from what was applied before the `if`; behind both, either may have
        // been done.
        let mut applied_by_no = *applied;
        let yes = self.block(depth + 1, applied)?.statements;
        let mut no = Vec::new();
        if self.is_word("else") {
            self.advance();
            no = self.block(depth + 1, &mut applied_by_no)?.statements;
        }
        *applied |= applied_by_no;
        Ok(StatementKind::If {
            test: Test {
                field,
                comparison,
                operand,
            },
            yes,
            no,
        })
    }

    // The end.

    /// The checks that are made when the source has been read whole.
    fn finish(mut self) -> Result<Program, Fault> {
        for Promise {
            header,
            choice,
            name,
        } in std::mem::take(&mut self.promises)
        {
            // A header that was not declared where the choice stands is declared behind it, and so
            // behind the choosing one.
            let next = self.find_header(name)?;
            let after = self.headers[header]
                .after
                .as_mut()
                .expect("the after of a choice");
            after.choices[choice].next = Some(next);
        }
        let missing = Fault::new(9, self.token.offset);
        let first = self.first.ok_or(missing)?;
        let block = self.block.ok_or(missing)?;
        Ok(Program {
            fields: self.fields,
            headers: self.headers,
            first,
            tables: self.tables,
            statements: block.statements,
            end_of_do: block.end,
        })
    }
}

/// What the first name of a field was found to be.
enum Found {
    Header(usize),
    Field(usize),
}

#[cfg(test)]
mod tests {
    use super::*;

    /// The code and the offset of a source; code 0 if it is read whole.
    fn answer(source: &str) -> (u8, usize) {
        match read(source.as_bytes()) {
            Ok(_) => (0, 0),
            Err(fault) => (fault.code, fault.offset),
        }
    }

    /// The code, and what stands in the source from the fault on.
    fn at(source: &str) -> (u8, &str) {
        let (code, offset) = answer(source);
        (code, &source[offset..])
    }

    #[test]
    fn table_of_the_reference() {
        for (source, code, offset) in [
            ("", 9, 0),
            ("header h { f 8; }", 9, 17),
            ("header h { f 8; ", 2, 16),
            ("header h { }", 5, 11),
            ("header h { f 4; }", 5, 16),
            ("header h { f 33; }", 4, 13),
            ("header h { f 4294967296; }", 4, 13),
            ("header 4294967296 { }", 2, 7),
            ("header h { f 0X8; }", 2, 13),
            ("header h { f 8; f 8; }", 3, 16),
            ("header h { out 8; }", 3, 11),
            ("header a_b { f 8; }", 2, 8),
            ("first h;", 3, 6),
            ("do { } do { }", 2, 7),
            ("do { set g 1; }", 3, 9),
            ("do { set out 1; }", 2, 13),
            (
                "header h { f 8; } header k { f 8; } do { set f = 1; }",
                3,
                45,
            ),
            ("header h { f 8; } after h by out { }", 3, 29),
            ("header h { f 8; } after h by f { 1 : h; }", 3, 37),
            ("header h { f 8; } after h by f { 1 : k; }", 3, 37),
            ("header h { f 8; } after h by f { 1 : k; } $", 2, 42),
            ("header h { f 8; } after h by f { } after h by f { }", 3, 41),
            ("table t { look; sets; lines 257; }", 4, 28),
            (
                "table t { look out, out, out, out, out; sets; lines 1; }",
                9,
                35,
            ),
            (
                "table t { look out, out, out, out, x; sets; lines 1; }",
                3,
                35,
            ),
            (
                "table t { look; sets; lines 1; } do { if out == 1 { apply t; } apply t; }",
                8,
                69,
            ),
        ] {
            assert_eq!(answer(source), (code, offset), "{source}");
        }
    }

    #[test]
    fn fields_that_are_too_many() {
        let mut most = String::new();
        for header in 0..8 {
            most += &format!("header h{header} {{ ");
            for field in 0..(if header == 7 { 7 } else { 8 }) {
                most += &format!("f{field} 8; ");
            }
            most += "} ";
        }
        // 63 fields of headers, and `out`.
        assert_eq!(answer(&(most.clone() + "first h0; do { }")), (0, 0));
        let open = most.trim_end().trim_end_matches('}').to_string();
        assert_eq!(at(&(open.clone() + "g 8;")), (9, "g 8;"));
        assert_eq!(at(&(open.clone() + "f0 8;")), (3, "f0 8;"));
        let long = "n".repeat(25);
        assert_eq!(at(&format!("{open}{long} 8;")).0, 4);
        let long = "n".repeat(24);
        assert_eq!(at(&format!("{open}{long} 8;")).0, 9);
        assert_eq!(at(&(most + "header k { f 8; }")), (9, "k { f 8; }"));
    }

    #[test]
    fn a_fifth_field_of_look() {
        let front = "header h { f 8; } table t { look f, f, f, f, ";
        for (rest, code) in [
            ("f;", 9),
            ("x;", 3),
            ("h.f;", 9),
            ("h.x;", 9),
            ("h.;", 9),
            ("k.f;", 3),
            (";", 2),
            ("1;", 2),
        ] {
            assert_eq!(at(&format!("{front}{rest}")), (code, rest), "{rest}");
        }
        let front = "header h { f 8; } table t { look f; sets f,f,f,f,f,f,f,f";
        assert_eq!(at(&format!("{front},f;")), (9, "f;"));
        assert_eq!(
            answer(&format!("{front}; lines 1; }} first h; do {{ }}")),
            (0, 0)
        );
    }

    #[test]
    fn a_ninth_choice() {
        let front = "header h { f 8; } after h by f { ".to_string() + &"1 : end; ".repeat(8);
        assert_eq!(answer(&(front.clone() + "} first h; do {}")), (0, 0));
        assert_eq!(at(&(front.clone() + "2 : end; }")), (9, "2 : end; }"));
        assert_eq!(at(&(front.clone() + "4294967296 :")), (4, "4294967296 :"));
        assert_eq!(at(&(front + "x :")), (2, "x :"));
    }

    #[test]
    fn names_are_looked_up_where_they_are_read() {
        let source = "header h { f 8; } table t { look f; sets; lines 1; } header k { f 8; }";
        let program =
            read(format!("{source} first h; do {{ set k.f = h.f; }}").as_bytes()).unwrap();
        assert_eq!(program.tables[0].look, [1]);
        assert_eq!(
            at(&format!("{source} do {{ set f = 1; }}")),
            (3, "f = 1; }")
        );
        assert_eq!(at("header h { f 8; } do { set h.g = 1; }"), (3, "g = 1; }"));
        assert_eq!(at("header h { f 8; } do { set h = 1; }"), (3, "h = 1; }"));
        assert_eq!(
            at("header h { f 8; } do { set k . f = 1; }"),
            (3, "k . f = 1; }")
        );
        assert_eq!(
            answer("header h { f 8; } first h; do { set h//\n.\t\r\n//\nf = 1; }"),
            (0, 0)
        );
    }

    #[test]
    fn the_field_of_an_after() {
        let front = "header k { g 8; } header h { f 8; } after h by ";
        assert_eq!(at(&format!("{front}k.g {{ }}")), (3, "k.g { }"));
        assert_eq!(at(&format!("{front}g {{ }}")), (3, "g { }"));
        assert_eq!(at(&format!("{front}h.g {{ }}")), (3, "g { }"));
        assert_eq!(at(&format!("{front}h.f {{ 1 : k; }}")), (3, "k; }"));
        assert_eq!(
            answer(&format!("{front}h . f {{ }} first h; do {{ }}")),
            (0, 0)
        );
    }

    #[test]
    fn choices_of_headers_that_come_later() {
        let front = "header h { f 8; } after h by f { 1 : k; 2 : m; } first h; do { }";
        assert_eq!(at(front), (3, "k; 2 : m; } first h; do { }"));
        assert_eq!(at(&format!("{front} header k {{ f 8; }}")).0, 3);
        let source = format!("{front} header m {{ f 8; }} header k {{ f 8; }}");
        let program = read(source.as_bytes()).unwrap();
        let after = program.headers[0].after.as_ref().unwrap();
        assert_eq!(after.choices[0].next, Some(2));
        assert_eq!(after.choices[1].next, Some(1));
        // A header called `end` can be first, but no choice can name it.
        let source =
            "header h { f 8; } header end { f 8; } first end; after h by f { 1 : end; } do {}";
        let program = read(source.as_bytes()).unwrap();
        assert_eq!(
            program.headers[0].after.as_ref().unwrap().choices[0].next,
            None
        );
        assert_eq!(program.first, 1);
    }

    #[test]
    fn nothing_is_reserved() {
        let source = "header header { set 8; out2 8; } first header; table lines { look set; sets \
                      sets.x; lines 1; } do { }";
        assert_eq!(at(source).0, 3);
        let source = "header header { set 8; sets 8; by 8; } first header; after header by by { } \
                      table lines { look sets; sets sets; lines 1; } \
                      table out { look; sets; lines 1; } \
                      do { set set = sets; add out = header.set; apply lines; apply out; }";
        assert_eq!(answer(source), (0, 0));
    }

    #[test]
    fn blocks() {
        let nested = |depth: usize| {
            let mut source = "header h { f 8; } first h; do {".to_string();
            for _ in 1..depth {
                source += "if f < 1 {";
            }
            source + &"}".repeat(depth)
        };
        assert_eq!(answer(&nested(8)), (0, 0));
        assert_eq!(at(&nested(9)), (7, "{}}}}}}}}}"));
        assert_eq!(at("do { if out == 1 { } else if"), (2, "if"));
        assert_eq!(at("do { else { } }"), (2, "else { } }"));
        let tables = "header h { f 8; } first h; table t { look; sets; lines 1; } ";
        let once = format!("{tables}do {{ if f == 1 {{ apply t; }} else {{ apply t; }} }}");
        assert_eq!(answer(&once), (0, 0));
        let twice = format!("{tables}do {{ if f == 1 {{ }} else {{ apply t; }} apply t; }}");
        assert_eq!(at(&twice), (8, "t; }"));
    }

    #[test]
    fn numbers() {
        let front = "header h { f 8; } first h; do { ";
        assert_eq!(answer(&format!("{front}set f = 4294967295; }}")), (0, 0));
        assert_eq!(
            at(&format!("{front}set f = 0x100000000; }}")),
            (4, "0x100000000; }")
        );
        assert_eq!(
            at(&format!("{front}set 4294967296 = 1; }}")),
            (2, "4294967296 = 1; }")
        );
        for (lines, code) in [("0", 4), ("1", 9), ("256", 9), ("0x101", 4), ("x", 2)] {
            assert_eq!(
                answer(&format!("table t {{ look; sets; lines {lines}; }}")).0,
                code
            );
        }
        for (width, code) in [("0", 4), ("8", 9), ("32", 9), ("33", 4), ("1", 5)] {
            assert_eq!(answer(&format!("header h {{ f {width}; }}")).0, code);
        }
        let long = "header h { ".to_string() + "a 32;b 32;c 32;d 32;e 32;f 32;g 32;h 32;";
        assert_eq!(answer(&(long.clone() + "}")).0, 9);
        assert_eq!(at(&(long + "i 8;}")), (5, "}"));
    }

    #[test]
    fn long_names() {
        let (fits, long) = ("n".repeat(24), "n".repeat(25));
        assert_eq!(answer(&format!("header {fits} {{ {fits} 8; }}")).0, 9);
        assert_eq!(answer(&format!("header {long} {{ f 8; }}")), (4, 7));
        assert_eq!(answer(&format!("table {long} {{")), (4, 6));
        assert_eq!(answer(&format!("first {long};")), (3, 6));
        let choice = format!("header h {{ f 8; }} after h by f {{ 1 : {long}; }}");
        assert_eq!(answer(&choice), (3, 37));
        assert_eq!(
            at(&format!("{choice} header {long} {{ }}")),
            (4, &*format!("{long} {{ }}"))
        );
    }
}
