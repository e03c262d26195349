//! Reads the bytes of an update, to new entries or to their first fault: sections 7.1 and 7.4.

use crate::meaning::{Entry, Pattern};
use crate::program::*;

const RUN_OUT_OR_LEFT_OVER: u8 = 1;
const UNKNOWN_KIND: u8 = 2;
const NO_SUCH_FIELD: u8 = 3;
const DOES_NOT_FIT: u8 = 4;
const NOT_OF_THE_TABLE: u8 = 11;

/// New entries for some tables.
pub type Update = Vec<(usize, Vec<Entry>)>;

pub fn decode(program: &Program, bytes: &[u8]) -> Result<Update, Fault> {
    let mut numbers = Numbers { bytes, position: 0 };
    let mut update: Update = Vec::new();
    for _ in 0..numbers.byte()?.value {
        let number = numbers.byte()?;
        let stands_already = update.iter().any(|(table, _)| *table == number.value);
        let table = match program.tables.get(number.value) {
            Some(table) if !stands_already => table,
            _ => return Err(number.fault(NOT_OF_THE_TABLE)),
        };
        let count = numbers.two_bytes()?;
        if count.value > table.lines {
            return Err(count.fault(NOT_OF_THE_TABLE));
        }
        let mut entries = Vec::new();
        for _ in 0..count.value {
            entries.push(entry(program, table, &mut numbers)?);
        }
        update.push((number.value, entries));
    }
    match numbers.position {
        end if end == bytes.len() => Ok(update),
        end => Err(Fault::new(RUN_OUT_OR_LEFT_OVER, end)),
    }
}

fn entry(program: &Program, table: &Table, numbers: &mut Numbers) -> Result<Entry, Fault> {
    let mut patterns = [Pattern::default(); LOOK_LIMIT];
    for (pattern, &field) in patterns.iter_mut().zip(&table.look) {
        let largest = program.fields[field].largest();
        pattern.value = numbers.number_up_to(largest)?;
        pattern.mask = numbers.number_up_to(largest)?;
    }
    let count = numbers.byte()?;
    if count.value > ACTION_LIMIT {
        return Err(count.fault(NOT_OF_THE_TABLE));
    }
    let mut actions = Vec::new();
    for _ in 0..count.value {
        actions.push(action(program, table, numbers)?);
    }
    Ok(Entry { patterns, actions })
}

fn action(program: &Program, table: &Table, numbers: &mut Numbers) -> Result<Action, Fault> {
    let kind = numbers.byte()?;
    let change = match kind.value {
        1 => Change::Set,
        2 => Change::Add,
        _ => return Err(kind.fault(UNKNOWN_KIND)),
    };
    let field = numbers.byte()?;
    if !table.sets.contains(&field.value) {
        return Err(field.fault(NOT_OF_THE_TABLE));
    }
    let kind = numbers.byte()?;
    let operand = match kind.value {
        0 => Operand::Number(numbers.number_up_to(u32::MAX)?),
        1 => {
            let field = numbers.byte()?;
            if field.value >= program.fields.len() {
                return Err(field.fault(NO_SUCH_FIELD));
            }
            Operand::Field(field.value)
        }
        _ => return Err(kind.fault(UNKNOWN_KIND)),
    };
    Ok(Action {
        change,
        field: field.value,
        operand,
    })
}

/// A number of the update, and the offset of its first byte.
struct Number {
    value: usize,
    offset: usize,
}

impl Number {
    fn fault(&self, code: u8) -> Fault {
        Fault::new(code, self.offset)
    }
}

struct Numbers<'bytes> {
    bytes: &'bytes [u8],
    position: usize,
}

impl Numbers<'_> {
    /// The next so many bytes and their offset. If they run out the fault stands at the end, also
    /// where some of them are there.
    fn take<const COUNT: usize>(&mut self) -> Result<([u8; COUNT], usize), Fault> {
        let offset = self.position;
        match self.bytes[offset..].first_chunk() {
            Some(chunk) => {
                self.position += COUNT;
                Ok((*chunk, offset))
            }
            None => Err(Fault::new(RUN_OUT_OR_LEFT_OVER, self.bytes.len())),
        }
    }

    fn byte(&mut self) -> Result<Number, Fault> {
        let ([byte], offset) = self.take()?;
        Ok(Number {
            value: usize::from(byte),
            offset,
        })
    }

    fn two_bytes(&mut self) -> Result<Number, Fault> {
        let (bytes, offset) = self.take()?;
        Ok(Number {
            value: usize::from(u16::from_be_bytes(bytes)),
            offset,
        })
    }

    fn number_up_to(&mut self, largest: u32) -> Result<u32, Fault> {
        let (bytes, offset) = self.take()?;
        let number = u32::from_be_bytes(bytes);
        if number > largest {
            return Err(Fault::new(DOES_NOT_FIT, offset));
        }
        Ok(number)
    }
}

#[cfg(test)]
mod tests {
    use super::*;
    use crate::source;

    const SOURCE: &[u8] =
        b"header h{f 8;g 8;}first h;table t{look f;sets out,g;lines 2;}do{apply t;}";

    /// The update of the reference's example.
    const UPDATE: [u8; 40] = [
        1, 0, 0, 2, 0, 0, 0, 0x10, 0, 0, 0, 0xf0, 2, 1, 0, 0, 0, 0, 0, 1, 2, 2, 1, 1, 0, 0, 0, 0,
        0, 0, 0, 0, 1, 1, 0, 0, 0, 0, 0, 2,
    ];

    fn answer(bytes: &[u8]) -> (u8, usize) {
        match decode(&source::read(SOURCE).unwrap(), bytes) {
            Ok(_) => (0, 0),
            Err(fault) => (fault.code, fault.offset),
        }
    }

    fn changed(place: usize, bytes: &[u8]) -> Vec<u8> {
        let mut update = UPDATE.to_vec();
        update[place..place + bytes.len()].copy_from_slice(bytes);
        update
    }

    #[test]
    fn example_of_the_reference() {
        let program = source::read(SOURCE).unwrap();
        let set = |number| Action {
            change: Change::Set,
            field: 0,
            operand: Operand::Number(number),
        };
        let add = Action {
            change: Change::Add,
            field: 2,
            operand: Operand::Field(1),
        };
        let mut patterns = [Pattern::default(); LOOK_LIMIT];
        let second = Entry {
            patterns,
            actions: vec![set(2)],
        };
        patterns[0] = Pattern {
            value: 0x10,
            mask: 0xf0,
        };
        let expected = vec![
            Entry {
                patterns,
                actions: vec![set(1), add],
            },
            second,
        ];
        assert_eq!(decode(&program, &UPDATE), Ok(vec![(0, expected)]));
    }

    #[test]
    fn changes_of_the_example() {
        assert_eq!(answer(&changed(0, &[2])), (1, 40));
        assert_eq!(
            answer(&[&changed(0, &[2])[..], &[0, 0, 0]].concat()),
            (11, 40)
        );
        assert_eq!(answer(&changed(1, &[1])), (11, 1));
        assert_eq!(answer(&changed(2, &[0, 3])), (11, 2));
        assert_eq!(answer(&changed(4, &[0, 0, 1, 0])), (4, 4));
        assert_eq!(answer(&changed(8, &[0, 0, 1, 0xf0])), (4, 8));
        assert_eq!(answer(&changed(12, &[5])), (11, 12));
        assert_eq!(answer(&changed(13, &[3])), (2, 13));
        assert_eq!(answer(&changed(14, &[1])), (11, 14));
        assert_eq!(answer(&changed(14, &[9])), (11, 14));
        assert_eq!(answer(&changed(15, &[2])), (2, 15));
        assert_eq!(answer(&changed(23, &[3])), (3, 23));
        assert_eq!(answer(&UPDATE[..39]), (1, 39));
        assert_eq!(answer(&UPDATE[..5]), (1, 5));
        assert_eq!(answer(&[&UPDATE[..], &[0]].concat()), (1, 40));
        assert_eq!(answer(&[]), (1, 0));
        assert_eq!(answer(&[0]), (0, 0));
        assert_eq!(answer(&[1, 0, 0, 0]), (0, 0));
    }
}
