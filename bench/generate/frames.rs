//! Writes a stream: a source, and updates, packets and pauses that go with it.

use super::damage;
use super::random::Random;
use super::source::{self, Model, Profile, Table};
use super::text;

const PAUSE: u8 = 4;

/// The frames of a stream.
pub fn stream(random: &mut Random) -> Vec<Vec<u8>> {
    let profile = if random.chance(90) {
        Profile::Switch
    } else {
        Profile::any(random)
    };
    let source = source::write(random, profile, false);
    let text = text::render(random, &source.tokens);
    let mut model = source.model;
    let mut frames = Vec::new();
    let early = if random.chance(20) {
        random.between(1, 4)
    } else {
        0
    };
    for _ in 0..early {
        frames.push(event(random, &mut model));
    }
    if random.chance(10) {
        let refused = damage::source(random, source.tokens);
        frames.push(framed(1, &refused));
    }
    if random.chance(97) {
        frames.push(framed(1, &text));
    }
    if random.chance(80) {
        frames.push(update(random, &mut model, false));
    }
    let events = *random.pick(&[5, 20, 40, 80]);
    for _ in 0..random.between(0, events) {
        if random.chance(1) {
            frames.push(framed(1, &text));
        }
        frames.push(event(random, &mut model));
    }
    if random.chance(80) {
        for _ in 0..random.between(10, 13) {
            frames.push(vec![PAUSE]);
        }
    }
    if random.chance(3) {
        frames.push(vec![*random.pick(&[0, 5, 16, 255])]);
    }
    frames
}

fn event(random: &mut Random, model: &mut Model) -> Vec<u8> {
    match random.weighted(&[60, 15, 15, 10]) {
        0 => packet(random, model),
        1 => vec![PAUSE],
        2 => update(random, model, false),
        _ => update(random, model, true),
    }
}

fn framed(kind: u8, bytes: &[u8]) -> Vec<u8> {
    let length = (bytes.len() as u32).to_be_bytes();
    // Packets have a length of two bytes.
    let length = if kind == 3 { &length[2..] } else { &length[..] };
    [&[kind], length, bytes].concat()
}

// Packets.

fn packet(random: &mut Random, model: &Model) -> Vec<u8> {
    let mut bytes = match random.below(20) {
        0 => {
            let length = random.below(40);
            (0..length).map(|_| random.byte()).collect()
        }
        _ => headers(random, model),
    };
    match random.below(20) {
        // It ends within a header, or just behind one.
        0 => bytes.truncate(random.between(0, bytes.len())),
        1 => {
            let length = *random.pick(&[2047, 2048, 2048, 2049, 2050, 4096, 65535]);
            let fill = random.byte();
            bytes.resize(length, fill);
        }
        _ => {
            let length = *random.pick(&[0, 1, 7, 30]);
            let length = random.between(0, length);
            bytes.extend((0..length).map(|_| random.byte()));
        }
    }
    framed(3, &bytes)
}

/// The headers of a packet, which follow one another as the choices say.
fn headers(random: &mut Random, model: &Model) -> Vec<u8> {
    let mut bits = Vec::new();
    let mut next = Some(model.first);
    while let Some(number) = next {
        let header = &model.headers[number];
        let choosing = header.after.as_ref().map(|after| after.by);
        next = None;
        for field in header.fields.clone() {
            let width = model.fields[field].width;
            let mut value = value(random, model, field);
            if choosing == Some(field) {
                let choices = &header.after.as_ref().expect("the field chooses").choices;
                if !choices.is_empty() && random.chance(80) {
                    value = random.pick(choices).0 & u32::MAX >> (32 - width);
                }
                let chosen = choices.iter().find(|(choice, _)| *choice == value);
                next = chosen.and_then(|(_, next)| *next);
            }
            bits.extend((0..width).rev().map(|place| value >> place & 1 == 1));
        }
    }
    let byte = |bits: &[bool]| bits.iter().fold(0, |byte, &bit| byte << 1 | u8::from(bit));
    bits.chunks(8).map(byte).collect()
}

/// A value that fits the field, often one that makes a difference.
fn value(random: &mut Random, model: &Model, field: usize) -> u32 {
    let values = &model.fields[field].values;
    if !values.is_empty() && random.chance(60) {
        *random.pick(values)
    } else {
        random.number(model.fields[field].width)
    }
}

// Updates.

/// Writes an update. If it has a slip, one of its numbers is wrong.
fn update(random: &mut Random, model: &mut Model, slips: bool) -> Vec<u8> {
    let mut writer = UpdateWriter {
        random,
        model,
        slips,
        bytes: Vec::new(),
    };
    writer.update();
    let UpdateWriter {
        slips: still_to_slip,
        mut bytes,
        ..
    } = writer;
    if still_to_slip {
        match random.below(3) {
            0 => bytes.push(random.byte()),
            1 => bytes.truncate(random.below(bytes.len())),
            _ => {
                let place = random.below(bytes.len());
                bytes[place] = random.byte();
            }
        }
    }
    framed(2, &bytes)
}

struct UpdateWriter<'parts> {
    random: &'parts mut Random,
    model: &'parts mut Model,
    /// Whether something is still to go wrong.
    slips: bool,
    bytes: Vec<u8>,
}

impl UpdateWriter<'_> {
    fn slip(&mut self) -> bool {
        let slip = self.slips && self.random.chance(4);
        if slip {
            self.slips = false;
        }
        slip
    }

    fn number(&mut self, number: u32) {
        self.bytes.extend(number.to_be_bytes());
    }

    fn update(&mut self) {
        let mut tables: Vec<usize> = (0..self.model.tables.len()).collect();
        let keep = self.random.between(0, tables.len().min(4));
        while tables.len() > keep {
            tables.remove(self.random.below(tables.len()));
        }
        if self.random.chance(30) {
            tables.reverse();
        }
        if !tables.is_empty() && self.slip() {
            tables.push(tables[0]);
        }
        let mut count = tables.len() as u8;
        if self.slip() {
            count = count.wrapping_add(*self.random.pick(&[1, 255]));
        }
        self.bytes.push(count);
        for table in tables {
            self.table(table);
        }
    }

    fn table(&mut self, number: usize) {
        let Table {
            look, sets, lines, ..
        } = &self.model.tables[number];
        let (look, sets, lines) = (look.clone(), sets.clone(), *lines);
        let wrong = self.slip();
        let written = if wrong {
            *self.random.pick(&[self.model.tables.len(), 32, 255])
        } else {
            number
        };
        self.bytes.push(written as u8);
        let entries = match self.random.below(20) {
            0 => lines,
            _ => self.random.between(0, lines.min(5)),
        };
        let announced = if self.slip() { lines + 1 } else { entries };
        self.bytes.extend((announced as u16).to_be_bytes());
        for _ in 0..entries {
            self.entry(&look, &sets);
        }
    }

    fn entry(&mut self, look: &[usize], sets: &[usize]) {
        for &field in look {
            let width = self.model.fields[field].width;
            let largest = u32::MAX >> (32 - width);
            let value = value(self.random, self.model, field);
            if self.model.fields[field].values.len() < 40 {
                self.model.fields[field].values.push(value);
            }
            let mask = match self.random.below(6) {
                0 => 0,
                1..4 => largest,
                4 => largest << self.random.below(width as usize) & largest,
                _ => self.random.number(width),
            };
            for number in [value, mask] {
                // In a field of 32 bits every number fits.
                let wrong = width < 32 && self.slip();
                self.number(if wrong { largest + 1 } else { number });
            }
        }
        let actions = if sets.is_empty() {
            0
        } else {
            self.random.between(0, 4)
        };
        let announced = if self.slip() { 5 } else { actions };
        self.bytes.push(announced as u8);
        for _ in 0..actions {
            self.action(sets);
        }
    }

    fn action(&mut self, sets: &[usize]) {
        let fields = self.model.fields.len();
        let kind = if self.slip() {
            *self.random.pick(&[0, 3, 255])
        } else {
            self.random.between(1, 2)
        };
        self.bytes.push(kind as u8);
        let mut field = *self.random.pick(sets);
        if self.slip() {
            let others: Vec<usize> = (0..fields + 2).filter(|n| !sets.contains(n)).collect();
            field = *self.random.pick(&others);
        }
        self.bytes.push(field as u8);
        if self.slip() {
            let kind = *self.random.pick(&[2, 3, 255]);
            self.bytes.push(kind);
        } else if self.random.chance(60) {
            self.bytes.push(0);
            let number = self.random.number(32);
            self.number(number);
        } else {
            self.bytes.push(1);
            let wrong = self.slip();
            let operand = if wrong {
                *self.random.pick(&[fields, 64, 255])
            } else {
                self.random.below(fields)
            };
            self.bytes.push(operand as u8);
        }
    }
}
