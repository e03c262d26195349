//! What a program means for one packet: section 4.

use crate::program::*;

/// The fields of a packet, by number. Those that a program does not have stay 0.
pub type Fields = [u32; FIELD_LIMIT];

#[derive(Clone, Debug, PartialEq, Eq)]
pub struct Entry {
    /// For each field that the table looks at, in order. They lie in the entry itself, as they are
    /// what every packet goes through.
    pub patterns: [Pattern; LOOK_LIMIT],
    pub actions: Vec<Action>,
}

#[derive(Clone, Copy, Debug, Default, PartialEq, Eq)]
pub struct Pattern {
    pub value: u32,
    pub mask: u32,
}

/// Does the statements from top to bottom. `tables` has the entries of each table.
pub fn run(program: &Program, tables: &[Vec<Entry>], fields: &mut Fields) {
    run_block(program, tables, &program.statements, fields);
}

fn run_block(
    program: &Program,
    tables: &[Vec<Entry>],
    statements: &[Statement],
    fields: &mut Fields,
) {
    for statement in statements {
        match &statement.kind {
            StatementKind::Act(action) => act(program, action, fields),
            StatementKind::Apply(table) => {
                let look = &program.tables[*table].look;
                let entry = tables[*table]
                    .iter()
                    .find(|entry| fits(entry, look, fields));
                for action in entry.iter().flat_map(|entry| &entry.actions) {
                    act(program, action, fields);
                }
            }
            StatementKind::If { test, yes, no } => {
                let block = if holds(test, fields) { yes } else { no };
                run_block(program, tables, block, fields);
            }
        }
    }
}

fn value(operand: Operand, fields: &Fields) -> u32 {
    match operand {
        Operand::Number(number) => number,
        Operand::Field(field) => fields[field],
    }
}

fn holds(test: &Test, fields: &Fields) -> bool {
    let operand = value(test.operand, fields);
    match test.comparison {
        Comparison::Equal => fields[test.field] == operand,
        Comparison::Less => fields[test.field] < operand,
    }
}

fn act(program: &Program, action: &Action, fields: &mut Fields) {
    let operand = value(action.operand, fields);
    let result = match action.change {
        Change::Set => operand,
        // Wrapping at 2^32 loses nothing below 2^width, which divides it.
        Change::Add => fields[action.field].wrapping_add(operand),
    };
    fields[action.field] = result & program.fields[action.field].largest();
}

/// Both sides are masked.
fn fits(entry: &Entry, look: &[usize], fields: &Fields) -> bool {
    let mut pairs = entry.patterns.iter().zip(look);
    pairs.all(|(pattern, &field)| (fields[field] ^ pattern.value) & pattern.mask == 0)
}

#[cfg(test)]
mod tests {
    use super::*;
    use crate::source;

    fn entry(patterns: &[(u32, u32)], actions: &[Action]) -> Entry {
        let mut entry = Entry {
            patterns: Default::default(),
            actions: actions.to_vec(),
        };
        for (place, &(value, mask)) in entry.patterns.iter_mut().zip(patterns) {
            *place = Pattern { value, mask };
        }
        entry
    }

    /// Runs the statements with `f` and `g` of 8 bits, `w` of 32, `n` of 1 and `m` of 7.
    fn done(statements: &str, entries: &[Entry], f: u32, g: u32) -> Fields {
        let source = format!(
            "header h {{ f 8; g 8; w 32; n 1; m 7; }} first h; \
             table t {{ look f; sets out, f, g, w; lines 4; }} \
             table u {{ look; sets g; lines 4; }} \
             table v {{ look f, f; sets g; lines 4; }} do {{ {statements} }}"
        );
        let program = source::read(source.as_bytes()).unwrap();
        let mut fields = [0; FIELD_LIMIT];
        (fields[1], fields[2]) = (f, g);
        run(&program, &vec![entries.to_vec(); 3], &mut fields);
        fields
    }

    #[test]
    fn sets_and_adds() {
        assert_eq!(done("set f = 300;", &[], 0, 0)[1], 44);
        assert_eq!(done("add f = 255;", &[], 7, 0)[1], 6);
        assert_eq!(done("add f = 4294967295;", &[], 7, 0)[1], 6);
        assert_eq!(
            done("set w = 4294967295; add w = w;", &[], 0, 0)[3],
            4294967294
        );
        assert_eq!(done("set n = 3; add n = 1;", &[], 0, 0)[4], 0);
        assert_eq!(done("set m = f;", &[], 255, 0)[5], 127);
        assert_eq!(done("set f = g; set g = f;", &[], 1, 2)[..3], [0, 2, 2]);
    }

    #[test]
    fn branches() {
        assert_eq!(done("if f == 300 { set g = 1; }", &[], 44, 0)[2], 0);
        assert_eq!(done("if f < 300 { set g = 1; }", &[], 255, 0)[2], 1);
        assert_eq!(
            done("if f < g { set g = 1; } else { set g = 2; }", &[], 5, 5)[2],
            2
        );
        assert_eq!(
            done("if f == g { set g = 1; } else { set g = 2; }", &[], 5, 5)[2],
            1
        );
    }

    #[test]
    fn tables() {
        let set = |field, number| Action {
            change: Change::Set,
            field,
            operand: Operand::Number(number),
        };
        let rows = [
            entry(&[(0x10, 0xf0)], &[set(2, 1)]),
            entry(&[(0, 0)], &[set(2, 2)]),
        ];
        assert_eq!(done("apply t;", &rows, 0x1f, 9)[2], 1);
        assert_eq!(done("apply t;", &rows, 0x20, 9)[2], 2);
        assert_eq!(done("apply t;", &rows[..1], 0x20, 9)[2], 9);
        assert_eq!(
            done("apply t;", &[entry(&[(0x1a, 0xf0)], &[set(2, 1)])], 0x1f, 9)[2],
            1
        );
        assert_eq!(done("apply t;", &[], 0, 9)[2], 9);
        // A table that looks at nothing takes its first entry.
        let rows = [entry(&[], &[set(2, 5)]), entry(&[], &[set(2, 6)])];
        assert_eq!(done("apply u;", &rows, 0, 9)[2], 5);
        // A field that is looked at twice has to agree twice.
        let rows = [entry(&[(1, 1), (2, 2)], &[set(2, 7)])];
        assert_eq!(done("apply v;", &rows, 3, 9)[2], 7);
        assert_eq!(done("apply v;", &rows, 1, 9)[2], 9);
        // An operand is the field as it is by then.
        let add = Action {
            change: Change::Add,
            field: 2,
            operand: Operand::Field(1),
        };
        let rows = [entry(&[(0, 0)], &[set(1, 3), add])];
        assert_eq!(done("apply t;", &rows, 100, 9)[..3], [0, 3, 12]);
    }
}
