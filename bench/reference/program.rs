//! What reading a source gives, and the limits of the language.

use std::ops::Range;

pub const NAME_LIMIT: usize = 24;
pub const FIELD_LIMIT: usize = 64;
pub const HEADER_LIMIT: usize = 8;
pub const TABLE_LIMIT: usize = 32;
pub const LOOK_LIMIT: usize = 4;
pub const SETS_LIMIT: usize = 8;
pub const CHOICE_LIMIT: usize = 8;
pub const DEPTH_LIMIT: usize = 8;
pub const WIDTH_LIMIT: u32 = 32;
pub const LINES_LIMIT: u32 = 256;
pub const HEADER_BITS_LIMIT: u32 = 256;
pub const ACTION_LIMIT: usize = 4;

/// The field `out`, the egress port.
pub const OUT: usize = 0;

/// Why a source or an update is refused, and where.
#[derive(Clone, Copy, Debug, PartialEq, Eq)]
pub struct Fault {
    pub code: u8,
    pub offset: usize,
}

impl Fault {
    pub fn new(code: u8, offset: usize) -> Self {
        Fault { code, offset }
    }
}

#[derive(Debug)]
pub struct Program {
    /// By number; the first is `out`.
    pub fields: Vec<Field>,
    pub headers: Vec<Header>,
    /// The header with which every packet begins.
    pub first: usize,
    pub tables: Vec<Table>,
    pub statements: Vec<Statement>,
    /// The offset of the `}` that closes `do`, where every halt stands.
    pub end_of_do: usize,
}

#[derive(Debug)]
pub struct Field {
    /// None for `out`.
    pub header: Option<usize>,
    pub name: String,
    pub width: u32,
}

impl Field {
    /// The largest value, which has all bits of the field.
    pub fn largest(&self) -> u32 {
        u32::MAX >> (32 - self.width)
    }
}

#[derive(Debug)]
pub struct Header {
    pub name: String,
    /// The numbers of its fields: they are declared one after the other.
    pub fields: Range<usize>,
    pub bytes: usize,
    pub after: Option<After>,
}

#[derive(Debug)]
pub struct After {
    pub by: usize,
    pub choices: Vec<Choice>,
}

#[derive(Debug)]
pub struct Choice {
    pub value: u32,
    /// The header that comes next, or None if headers end.
    pub next: Option<usize>,
}

#[derive(Debug)]
pub struct Table {
    pub name: String,
    pub look: Vec<usize>,
    pub sets: Vec<usize>,
    pub lines: usize,
}

#[derive(Debug)]
pub struct Statement {
    /// The offset of its keyword.
    pub offset: usize,
    pub kind: StatementKind,
}

#[derive(Debug)]
pub enum StatementKind {
    Act(Action),
    Apply(usize),
    If {
        test: Test,
        yes: Vec<Statement>,
        no: Vec<Statement>,
    },
}

#[derive(Clone, Copy, Debug, PartialEq, Eq)]
pub struct Action {
    pub change: Change,
    pub field: usize,
    pub operand: Operand,
}

#[derive(Clone, Copy, Debug, PartialEq, Eq)]
pub enum Change {
    Set,
    Add,
}

#[derive(Clone, Copy, Debug, PartialEq, Eq)]
pub enum Operand {
    Number(u32),
    Field(usize),
}

#[derive(Clone, Copy, Debug, PartialEq, Eq)]
pub struct Test {
    pub field: usize,
    pub comparison: Comparison,
    pub operand: Operand,
}

#[derive(Clone, Copy, Debug, PartialEq, Eq)]
pub enum Comparison {
    Equal,
    Less,
}

impl Program {
    /// A field as it is printed: in full.
    pub fn field_name(&self, number: usize) -> String {
        let field = &self.fields[number];
        match field.header {
            None => field.name.clone(),
            Some(header) => format!("{}.{}", self.headers[header].name, field.name),
        }
    }
}
