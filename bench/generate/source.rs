//! Writes a source, and keeps a model of what it declares.
//!
//! A source is in order as far as the model can tell, but for the stages of its nodes, which are
//! not counted here. If slips are asked for, one thing in it is wrong, or one limit is passed by
//! one, at a place that is drawn like everything else.

use super::random::Random;
use super::text::{self, NameStyle, Token};
use std::ops::Range;

pub struct Source {
    pub tokens: Vec<Token>,
    pub model: Model,
}

pub struct Model {
    /// By number; the first is `out`.
    pub fields: Vec<Field>,
    pub headers: Vec<Header>,
    pub first: usize,
    pub tables: Vec<Table>,
}

pub struct Field {
    header: Option<usize>,
    name: String,
    pub width: u32,
    /// Values that make a difference: those of choices, branches and entries.
    pub values: Vec<u32>,
}

pub struct Header {
    name: String,
    pub fields: Range<usize>,
    pub after: Option<After>,
}

pub struct After {
    pub by: usize,
    pub choices: Vec<(u32, Option<usize>)>,
}

pub struct Table {
    pub name: String,
    pub look: Vec<usize>,
    pub sets: Vec<usize>,
    pub lines: usize,
}

/// What a source is like.
#[derive(Clone, Copy, PartialEq, Eq)]
pub enum Profile {
    Tiny,
    Usual,
    /// Near the limits of what may be declared.
    Large,
    /// Near the limits of placement.
    Placed,
    /// Small, and with something to see on packets that go through it.
    Switch,
}

impl Profile {
    pub fn any(random: &mut Random) -> Self {
        let profiles = [
            Profile::Tiny,
            Profile::Usual,
            Profile::Large,
            Profile::Placed,
        ];
        profiles[random.weighted(&[10, 45, 20, 25])]
    }
}

#[derive(Clone, Copy)]
enum Item {
    Header(usize),
    Table,
    First,
    After(usize),
    Do,
}

pub fn write(random: &mut Random, profile: Profile, slips: bool) -> Source {
    let style = NameStyle::any(random);
    let slips_in_a_thousand = if slips { *random.pick(&[5, 20, 60]) } else { 0 };
    let mut writer = Writer {
        random,
        profile,
        style,
        slips_in_a_thousand,
        tokens: Vec::new(),
        model: Model {
            fields: Vec::new(),
            headers: Vec::new(),
            first: 0,
            tables: Vec::new(),
        },
        declared_headers: 0,
        declared_fields: 1,
        planned_tables: 0,
        incomplete: false,
    };
    writer.plan();
    for item in writer.items() {
        writer.item(item);
    }
    Source {
        tokens: writer.tokens,
        model: writer.model,
    }
}

pub struct Writer<'random> {
    pub random: &'random mut Random,
    pub profile: Profile,
    style: NameStyle,
    /// How often something goes wrong; 0 once it has.
    slips_in_a_thousand: usize,
    tokens: Vec<Token>,
    /// Headers and fields stand here before they are declared, as choices may name them.
    pub model: Model,
    declared_headers: usize,
    declared_fields: usize,
    planned_tables: usize,
    /// Whether `first` or `do` is left out. Then a choice may also name a header that is never
    /// declared, which is found at the end too.
    incomplete: bool,
}

impl Writer<'_> {
    /// Whether something goes wrong here.
    pub fn slip(&mut self) -> bool {
        let slip = self.random.below(1000) < self.slips_in_a_thousand;
        if slip {
            self.slips_in_a_thousand = 0;
        }
        slip
    }

    /// Whether what is one too many is wrong in another way too: then the lower code is due.
    fn slip_past(&mut self, index: usize, limit: usize) -> bool {
        self.slip() || index >= limit && self.random.chance(40)
    }

    /// The same as `slip`, for what a source has once or a few times only.
    pub fn likely_slip(&mut self) -> bool {
        (0..6).any(|_| self.slip())
    }

    /// A count of up to `usual`, at times just the limit, and one more where something goes wrong.
    fn count(&mut self, usual: usize, limit: usize) -> usize {
        if self.slip() {
            limit + 1
        } else if self.random.chance(8) {
            limit
        } else {
            self.random.between(0, usual)
        }
    }

    // Tokens.

    pub fn put(&mut self, token: &str) {
        self.tokens.push(token.as_bytes().to_vec());
    }

    fn put_all(&mut self, tokens: &[&str]) {
        for token in tokens {
            self.put(token);
        }
    }

    pub fn number(&mut self, value: u64) {
        let number = text::number(self.random, value);
        self.put(&number);
    }

    /// A number that is too large wherever it stands.
    pub fn large_number(&mut self) {
        let value = *self.random.pick(&[1 << 32, (1 << 32) + 8, u64::MAX]);
        if self.random.chance(20) {
            let number = "123456789".repeat(self.random.between(3, 40));
            self.put(&number);
        } else {
            self.number(value);
        }
    }

    pub fn long_name(&mut self) {
        let length = *self.random.pick(&[25, 25, 25, 26, 48, 300]);
        let name = text::word_of_length(self.random, length);
        self.put(&name);
    }

    /// A name that is not in the list.
    fn new_name(&mut self, taken: &[&str]) -> String {
        loop {
            let name = text::name(self.random, self.style);
            if !taken.contains(&name.as_str()) {
                return name;
            }
            // The names of a style may run out.
            if self.random.chance(10) {
                self.style = NameStyle::Any;
            }
        }
    }

    /// Writes a name that is declared. Where something goes wrong it is another one.
    fn declare(&mut self, name: &str, taken: &[String], index: usize, limit: usize) {
        if !self.slip_past(index, limit) {
            return self.put(name);
        }
        match self.random.below(4) {
            0 | 1 if !taken.is_empty() => {
                let name = self.random.pick(taken).clone();
                self.put(&name);
            }
            2 => self.number(7),
            _ => self.long_name(),
        }
    }

    // What is declared, before it is written.

    fn plan(&mut self) {
        let (headers, tables) = match self.profile {
            Profile::Tiny => (1, self.count(1, 2)),
            Profile::Usual => (self.count(4, 8).max(1), self.count(5, 32)),
            Profile::Large => (self.random.between(6, 8), self.random.between(20, 32)),
            Profile::Placed => (self.random.between(1, 2), self.random.between(5, 32)),
            Profile::Switch => (self.random.between(1, 5), self.random.between(1, 5)),
        };
        let headers = if self.likely_slip() { 9 } else { headers };
        self.planned_tables = if self.likely_slip() { 33 } else { tables };
        let out = Field {
            header: None,
            name: "out".to_string(),
            width: 8,
            values: vec![0, 1],
        };
        self.model.fields.push(out);
        // 63 fields beside `out`, or one more where something goes wrong.
        let all_fields = if self.likely_slip() { 64 } else { 63 };
        for header in 0..headers {
            let left = all_fields + 1 - self.model.fields.len();
            let headers_left = headers - header;
            let room = (left + 1 - headers_left).min(if all_fields == 64 { 12 } else { 60 });
            let count = if all_fields == 64 || self.profile == Profile::Large {
                left.div_ceil(headers_left).clamp(1, room)
            } else {
                self.random.between(1, 6).min(room)
            };
            self.plan_header(count);
        }
        self.model.first = if self.random.chance(70) {
            0
        } else {
            self.random.below(headers)
        };
    }

    fn plan_header(&mut self, count: usize) {
        let header = self.model.headers.len();
        let taken: Vec<String> = self.model.headers.iter().map(|h| h.name.clone()).collect();
        let taken: Vec<&str> = taken.iter().map(String::as_str).collect();
        let name = self.new_name(&taken);
        let least = count.div_ceil(8);
        let most = (4 * count).min(32);
        let mut bytes = self.random.between(least, most);
        if self.random.chance(10) {
            bytes = most;
        }
        if count > 8 && self.likely_slip() {
            bytes = 33;
        }
        let mut bits = 8 * bytes;
        let start = self.model.fields.len();
        let mut names: Vec<String> = vec!["out".to_string()];
        for field in 0..count {
            let behind = count - field - 1;
            let low = bits.saturating_sub(32 * behind).max(1);
            let high = (bits - behind).min(32);
            let liked = *self
                .random
                .pick(&[1, 3, 4, 8, 8, 8, 12, 13, 16, 16, 24, 32]);
            let width = if (low..=high).contains(&liked) {
                liked
            } else {
                self.random.between(low, high)
            };
            bits -= width;
            let taken: Vec<&str> = names.iter().map(String::as_str).collect();
            let name = self.new_name(&taken);
            names.push(name.clone());
            let field = Field {
                header: Some(header),
                name,
                width: width as u32,
                values: Vec::new(),
            };
            self.model.fields.push(field);
        }
        let fields = start..self.model.fields.len();
        self.model.headers.push(Header {
            name,
            fields,
            after: None,
        });
    }

    /// The items in an order in which each name is declared before it is used.
    fn items(&mut self) -> Vec<Item> {
        let headers = self.model.headers.len();
        let mut items: Vec<Item> = (0..headers).map(Item::Header).collect();
        let mixed = self.random.chance(40);
        for _ in 0..self.planned_tables {
            let place = if mixed {
                self.random.between(0, items.len())
            } else {
                items.len()
            };
            items.insert(place, Item::Table);
        }
        if !self.slip() {
            self.insert_behind(&mut items, self.model.first, Item::First);
        } else if self.random.chance(50) {
            // In front of its header, which is unknown there.
            items.insert(0, Item::First);
        } else {
            self.incomplete = true;
        }
        for header in 0..headers {
            if self.random.chance(70) {
                self.insert_behind(&mut items, header, Item::After(header));
            }
            if self.slip() {
                self.insert_behind(&mut items, header, Item::After(header));
            }
        }
        if !self.slip() {
            let place = if self.random.chance(80) {
                items.len()
            } else {
                self.random.between(0, items.len())
            };
            items.insert(place, Item::Do);
        } else {
            self.incomplete = true;
        }
        if self.slip() {
            self.insert_behind(&mut items, self.model.first, Item::First);
        }
        if self.slip() {
            let place = self.random.between(0, items.len());
            items.insert(place, Item::Do);
        }
        items
    }

    fn insert_behind(&mut self, items: &mut Vec<Item>, header: usize, item: Item) {
        let place = items
            .iter()
            .position(|item| matches!(item, Item::Header(number) if *number == header))
            .expect("every header is an item");
        let place = self.random.between(place + 1, items.len());
        items.insert(place, item);
    }

    // Items.

    fn item(&mut self, item: Item) {
        match item {
            Item::Header(number) => self.header(number),
            Item::Table => self.table(),
            Item::First => {
                self.put("first");
                self.header_name(self.model.first);
                self.put(";");
            }
            Item::After(header) => self.after(header),
            Item::Do => self.do_block(),
        }
    }

    fn header(&mut self, number: usize) {
        let Header { name, fields, .. } = &self.model.headers[number];
        let (name, fields) = (name.clone(), fields.clone());
        let taken: Vec<String> = self.model.headers[..number]
            .iter()
            .map(|header| header.name.clone())
            .collect();
        self.put("header");
        self.declare(&name, &taken, number, 8);
        self.put("{");
        let empty = self.slip();
        let mut taken = vec!["out".to_string()];
        for field in fields.clone() {
            if empty {
                break;
            }
            let Field { name, width, .. } = &self.model.fields[field];
            let (name, width) = (name.clone(), *width);
            self.declare(&name, &taken, field, 64);
            taken.push(name);
            if !self.slip() {
                self.number(u64::from(width));
            } else {
                match self.random.below(5) {
                    0 => self.number(0),
                    1 => self.number(33),
                    2 => self.number(40),
                    // The header is then not of whole bytes.
                    3 => self.number(u64::from(if width == 1 { 2 } else { width - 1 })),
                    _ => self.large_number(),
                }
            }
            self.put(";");
        }
        self.put("}");
        self.declared_headers = number + 1;
        self.declared_fields = fields.end;
    }

    /// Writes the name of a header that is used.
    fn header_name(&mut self, number: usize) {
        if self.slip() {
            match self.random.below(3) {
                0 => self.unknown_name(),
                1 => self.long_name(),
                // A header that may not be declared yet.
                _ => {
                    let any = self.random.below(self.model.headers.len());
                    let name = self.model.headers[any].name.clone();
                    self.put(&name);
                }
            }
        } else {
            let name = self.model.headers[number].name.clone();
            self.put(&name);
        }
    }

    pub fn unknown_name(&mut self) {
        let length = self.random.between(5, 24);
        let name = text::word_of_length(self.random, length);
        self.put(&name);
    }

    fn after(&mut self, header: usize) {
        self.put("after");
        self.header_name(header);
        self.put("by");
        let fields = self.model.headers[header].fields.clone();
        let by = self.random.between(fields.start, fields.end - 1);
        let header_name = self.model.headers[header].name.clone();
        let name = self.model.fields[by].name.clone();
        if self.likely_slip() {
            match self.random.below(4) {
                0 => self.put("out"),
                1 => self.unknown_name(),
                2 => {
                    let any = self.random.below(self.model.fields.len());
                    self.write_in_full(any);
                }
                _ => {
                    self.put_all(&[&header_name, "."]);
                    self.unknown_name();
                }
            }
        } else if self.random.chance(70) {
            self.put(&name);
        } else {
            self.put_all(&[&header_name, ".", &name]);
        }
        self.put("{");
        let width = self.model.fields[by].width;
        let mut choices = Vec::new();
        for index in 0..self.count(4, 8) {
            let value = match self.random.below(8) {
                0 => self.random.number(32),
                1..4 => self.random.below(4) as u32,
                _ => self.random.number(width),
            };
            if self.slip_past(index, 8) {
                self.large_number();
            } else {
                self.number(u64::from(value));
            }
            self.put(":");
            let next = self.choice(header);
            self.put(";");
            choices.push((value, next));
            self.interesting(by, value);
        }
        self.put("}");
        self.model.headers[header].after = Some(After { by, choices });
    }

    /// Writes where a choice leads, and gives the header that this is.
    fn choice(&mut self, header: usize) -> Option<usize> {
        let headers = self.model.headers.len();
        if self.incomplete && self.random.chance(10) {
            self.unknown_name();
            return None;
        }
        if self.likely_slip() {
            match self.random.below(3) {
                0 => self.unknown_name(),
                1 => self.long_name(),
                _ => {
                    let earlier = self.random.between(0, header);
                    let name = self.model.headers[earlier].name.clone();
                    self.put(&name);
                }
            }
            return None;
        }
        if header + 1 == headers || self.random.chance(15) {
            self.put("end");
            return None;
        }
        let next = self.random.between(header + 1, headers - 1);
        let name = self.model.headers[next].name.clone();
        self.put(&name);
        // Where a choice stands, `end` is no header.
        (name != "end").then_some(next)
    }

    fn table(&mut self) {
        let taken: Vec<String> = self
            .model
            .tables
            .iter()
            .map(|table| table.name.clone())
            .collect();
        let name = {
            let taken: Vec<&str> = taken.iter().map(String::as_str).collect();
            self.new_name(&taken)
        };
        self.put("table");
        self.declare(&name, &taken, self.model.tables.len(), 32);
        self.put_all(&["{", "look"]);
        let looks = self.count(2, 4);
        let look = self.draw_fields(looks);
        self.field_list(&look, 4);
        self.put("sets");
        let sets = self.count(4, 8);
        let mut sets = self.draw_fields(sets);
        if self.profile == Profile::Switch && self.random.chance(70) {
            sets.pop();
            sets.push(0);
        }
        self.field_list(&sets, 8);
        self.put("lines");
        let lines = *self.random.pick(&[1, 2, 4, 8, 64, 255, 256]);
        if !self.slip() {
            self.number(lines as u64);
        } else {
            match self.random.below(3) {
                0 => self.number(0),
                1 => self.number(257),
                _ => self.large_number(),
            }
        }
        self.put_all(&[";", "}"]);
        self.model.tables.push(Table {
            name,
            look,
            sets,
            lines,
        });
    }

    // Fields.

    pub fn any_field(&mut self) -> usize {
        if self.random.chance(15) {
            0
        } else {
            self.random.below(self.declared_fields)
        }
    }

    fn draw_fields(&mut self, count: usize) -> Vec<usize> {
        (0..count).map(|_| self.any_field()).collect()
    }

    fn field_list(&mut self, fields: &[usize], limit: usize) {
        for (index, &field) in fields.iter().enumerate() {
            if index > 0 {
                self.put(",");
            }
            if self.slip_past(index, limit) {
                self.wrong_field(field);
            } else {
                self.field(field);
            }
        }
        self.put(";");
    }

    fn write_in_full(&mut self, number: usize) {
        let Field { header, name, .. } = &self.model.fields[number];
        let name = name.clone();
        if let Some(header) = *header {
            let header = self.model.headers[header].name.clone();
            self.put_all(&[&header, "."]);
        }
        self.put(&name);
    }

    /// Whether just one field that is declared so far has this name.
    fn is_bare(&self, name: &str) -> bool {
        let declared = &self.model.fields[..self.declared_fields];
        declared.iter().filter(|field| field.name == name).count() == 1
    }

    /// Writes a field that is used.
    pub fn field(&mut self, number: usize) {
        if self.slip() {
            return self.wrong_field(number);
        }
        let name = self.model.fields[number].name.clone();
        if self.is_bare(&name) && self.random.chance(70) {
            self.put(&name);
        } else {
            self.write_in_full(number);
        }
    }

    fn wrong_field(&mut self, number: usize) {
        let name = self.model.fields[number].name.clone();
        match self.random.below(7) {
            0 => self.unknown_name(),
            1 => self.long_name(),
            2 => {
                self.unknown_name();
                self.put_all(&[".", &name]);
            }
            3 => {
                let any = self.random.below(self.model.headers.len());
                let header = self.model.headers[any].name.clone();
                self.put_all(&[&header, "."]);
                self.unknown_name();
            }
            4 => {
                let any = self.random.below(self.model.headers.len());
                let header = self.model.headers[any].name.clone();
                self.put(&header);
            }
            // A name that two headers have, or else one that may not be declared yet.
            5 => {
                let fields = &self.model.fields;
                let shared: Vec<usize> = (0..fields.len())
                    .filter(|&n| !self.is_bare(&fields[n].name))
                    .collect();
                let any = if shared.is_empty() {
                    self.random.below(fields.len())
                } else {
                    *self.random.pick(&shared)
                };
                let name = self.model.fields[any].name.clone();
                self.put(&name);
            }
            _ => {
                let any = self.random.below(self.model.fields.len());
                self.write_in_full(any);
            }
        }
    }

    pub fn interesting(&mut self, field: usize, value: u32) {
        let Field { width, values, .. } = &mut self.model.fields[field];
        if value <= u32::MAX >> (32 - *width) {
            values.push(value);
        }
    }
}
