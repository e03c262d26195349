//! Places a program as a row of nodes on stages, and prints it: sections 5 and 8.1.

use crate::program::*;
use crate::source;
use std::fmt::Write;

const STAGES: usize = 12;
const NODE_LIMIT: usize = 512;
const NODES_OF_A_STAGE: usize = 64;
const TABLES_OF_A_STAGE: usize = 4;

/// What `lay` prints for a source.
pub fn lay(source: &[u8]) -> Result<String, Fault> {
    let program = source::read(source)?;
    let row = place(&program)?;
    Ok(listing(&program, &row))
}

/// Reads a source and checks that it can be placed.
pub fn load(source: &[u8]) -> Result<Program, Fault> {
    let program = source::read(source)?;
    place(&program)?;
    Ok(program)
}

/// A node. All but a branch and a halt go on at the node behind them.
#[derive(Debug)]
enum Node {
    Act { stage: usize, action: Action },
    Apply { stage: usize, table: usize },
    Branch { stage: usize, test: Test, no: usize },
    Halt,
}

/// A way through the program that is still to be laid out.
struct Path<'program> {
    /// What is left of the blocks around this place, the innermost last.
    rest: Vec<&'program [Statement]>,
    place: Place,
    /// The branch whose no path this is.
    no_of: Option<usize>,
}

impl<'program> Path<'program> {
    fn next_statement(&mut self) -> Option<&'program Statement> {
        while let Some(block) = self.rest.last_mut() {
            match block {
                [] => {
                    self.rest.pop();
                }
                [statement, rest @ ..] => {
                    *block = rest;
                    return Some(statement);
                }
            }
        }
        None
    }
}

/// The state along a path: a stage, and whether something was changed on it.
#[derive(Clone, Copy)]
struct Place {
    stage: usize,
    changed: bool,
}

/// How full the stages are. All stages from the twelfth on are one, which is never full: what
/// stands there is refused, and so is all that follows on its path.
#[derive(Default)]
struct Stages {
    nodes: [usize; STAGES],
    tables: [usize; STAGES],
}

impl Stages {
    fn put(&mut self, from: Place, kind: &StatementKind) -> Place {
        let is_table = matches!(kind, StatementKind::Apply(_));
        let mut stage = from.stage;
        if is_table && from.changed {
            stage += 1;
        }
        while stage < STAGES
            && (self.nodes[stage] == NODES_OF_A_STAGE
                || is_table && self.tables[stage] == TABLES_OF_A_STAGE)
        {
            stage += 1;
        }
        if stage < STAGES {
            self.nodes[stage] += 1;
            self.tables[stage] += usize::from(is_table);
        }
        let changed = match kind {
            StatementKind::If { .. } => from.changed && stage == from.stage,
            _ => true,
        };
        Place { stage, changed }
    }
}

fn place(program: &Program) -> Result<Vec<Node>, Fault> {
    let mut row = Vec::new();
    let mut stages = Stages::default();
    // The smallest offset of a node that is out of place.
    let mut refused: Option<usize> = None;
    let mut refuse = |offset: usize| refused = Some(refused.map_or(offset, |o| o.min(offset)));
    let mut waiting = vec![Path {
        rest: vec![&program.statements],
        place: Place {
            stage: 0,
            changed: false,
        },
        no_of: None,
    }];
    'paths: while let Some(mut path) = waiting.pop() {
        if let Some(branch) = path.no_of {
            let next = row.len();
            if let Node::Branch { no, .. } = &mut row[branch] {
                *no = next;
            }
        }
        loop {
            let statement = path.next_statement();
            if row.len() == NODE_LIMIT {
                refuse(statement.map_or(program.end_of_do, |statement| statement.offset));
                break 'paths;
            }
            let Some(Statement { offset, kind }) = statement else {
                row.push(Node::Halt);
                continue 'paths;
            };
            path.place = stages.put(path.place, kind);
            let stage = path.place.stage;
            if stage >= STAGES {
                refuse(*offset);
            }
            match kind {
                StatementKind::Act(action) => row.push(Node::Act {
                    stage,
                    action: *action,
                }),
                StatementKind::Apply(table) => row.push(Node::Apply {
                    stage,
                    table: *table,
                }),
                StatementKind::If { test, yes, no } => {
                    let mut no_rest = path.rest.clone();
                    no_rest.push(no);
                    waiting.push(Path {
                        rest: no_rest,
                        place: path.place,
                        no_of: Some(row.len()),
                    });
                    path.rest.push(yes);
                    row.push(Node::Branch {
                        stage,
                        test: *test,
                        no: 0,
                    });
                }
            }
        }
    }
    match refused {
        None => Ok(row),
        Some(offset) => Err(Fault::new(10, offset)),
    }
}

fn listing(program: &Program, row: &[Node]) -> String {
    let operand = |operand| match operand {
        Operand::Number(number) => number.to_string(),
        Operand::Field(field) => program.field_name(field),
    };
    let mut text = String::new();
    for (number, node) in row.iter().enumerate() {
        let next = number + 1;
        let line = match node {
            Node::Halt => format!("node {number}: halt"),
            Node::Act { stage, action } => format!(
                "node {number} stage {stage}: {} {} = {} then {next}",
                match action.change {
                    Change::Set => "set",
                    Change::Add => "add",
                },
                program.field_name(action.field),
                operand(action.operand),
            ),
            Node::Apply { stage, table } => format!(
                "node {number} stage {stage}: apply {} then {next}",
                program.tables[*table].name,
            ),
            Node::Branch { stage, test, no } => format!(
                "node {number} stage {stage}: if {} {} {} then {next} else {no}",
                program.field_name(test.field),
                match test.comparison {
                    Comparison::Equal => "==",
                    Comparison::Less => "<",
                },
                operand(test.operand),
            ),
        };
        writeln!(text, "{line}").expect("a string takes all that is written");
    }
    text
}

#[cfg(test)]
mod tests {
    use super::*;

    const FRONT: &str = "header h { f 8; g 8; } first h; \
                         table t { look f; sets g; lines 4; } \
                         table u { look g; sets out; lines 4; } ";

    fn laid(rest: &str) -> String {
        lay(format!("{FRONT}{rest}").as_bytes()).unwrap()
    }

    /// The code, and what stands in the source from the fault on.
    fn refused(source: &str) -> (u8, &str) {
        let fault = lay(source.as_bytes()).unwrap_err();
        (fault.code, &source[fault.offset..])
    }

    fn declared(tables: std::ops::Range<usize>) -> String {
        tables
            .map(|n| format!("table t{n} {{ look; sets; lines 1; }} "))
            .collect()
    }

    fn applied(tables: std::ops::Range<usize>) -> String {
        tables.map(|n| format!("apply t{n}; ")).collect()
    }

    #[test]
    fn example_of_the_overview() {
        let source = b"// Forwards by station, and counts the hops that are left.
            header link { to 16; kind 8; } header hop { left 8; from 16; }
            first link; after link by kind { 1 : hop; }
            table ports { look to; sets out; lines 64; }
            do {
              apply ports;
              if kind == 1 {
                if left == 0 { set out = 0; } else { add left = 0xff; }
              }
            }";
        let expected = "\
node 0 stage 0: apply ports then 1
node 1 stage 0: if link.kind == 1 then 2 else 7
node 2 stage 0: if hop.left == 0 then 3 else 5
node 3 stage 0: set out = 0 then 4
node 4: halt
node 5 stage 0: add hop.left = 255 then 6
node 6: halt
node 7: halt
";
        assert_eq!(lay(source).unwrap(), expected);
    }

    #[test]
    fn examples_of_placement() {
        let expected = "\
node 0 stage 0: apply t then 1
node 1 stage 1: apply u then 2
node 2: halt
";
        assert_eq!(laid("do { apply t; apply u; }"), expected);
        let expected = "\
node 0 stage 0: if h.f == 1 then 1 else 4
node 1 stage 0: apply t then 2
node 2 stage 1: apply u then 3
node 3: halt
node 4 stage 0: apply u then 5
node 5: halt
";
        assert_eq!(laid("do { if f == 1 { apply t; } apply u; }"), expected);
        let expected = "\
node 0 stage 0: set h.g = 1 then 1
node 1 stage 0: if h.f == 1 then 2 else 4
node 2 stage 1: apply u then 3
node 3: halt
node 4 stage 1: apply u then 5
node 5: halt
";
        assert_eq!(laid("do { set g = 1; if f == 1 { } apply u; }"), expected);
        let expected = "\
node 0 stage 0: set h.f = 1 then 1
node 1 stage 0: set h.g = 2 then 2
node 2 stage 1: apply t then 3
node 3 stage 1: set h.g = 3 then 4
node 4: halt
";
        assert_eq!(
            laid("do { set f = 1; set g = 2; apply t; set g = 3; }"),
            expected
        );
        let expected = "\
node 0 stage 0: if h.f == 1 then 1 else 4
node 1 stage 0: apply t then 2
node 2 stage 0: set h.g = 5 then 3
node 3: halt
node 4: halt
";
        assert_eq!(laid("do { if f == 1 { apply t; set g = 5; } }"), expected);
        assert!(
            laid("do { set f = 0x12c; }").starts_with("node 0 stage 0: set h.f = 300 then 1\n")
        );
    }

    #[test]
    fn a_full_stage_moves_a_branch() {
        let source = format!(
            "do {{ {}if f == 1 {{ }} apply u; }}",
            "set g = 1; ".repeat(64)
        );
        let listing = laid(&source);
        let lines: Vec<&str> = listing.lines().collect();
        assert_eq!(lines[63], "node 63 stage 0: set h.g = 1 then 64");
        assert_eq!(lines[64], "node 64 stage 1: if h.f == 1 then 65 else 67");
        assert_eq!(lines[65], "node 65 stage 1: apply u then 66");
        assert_eq!(lines[67], "node 67 stage 1: apply u then 68");
    }

    #[test]
    fn five_tables_on_five_paths() {
        let mut source = format!("header h {{ f 8; }} first h; {} do {{ ", declared(0..6));
        for table in 0..4 {
            source += &format!("if f == {table} {{ apply t{table}; }} else {{ ");
        }
        source += "apply t4; apply t5; }}}}}";
        let listing = lay(source.as_bytes()).unwrap();
        let stage_of = |table: &str| {
            let line = listing.lines().find(|line| line.contains(table)).unwrap();
            line.split(' ')
                .nth(3)
                .unwrap()
                .trim_end_matches(':')
                .parse::<usize>()
                .unwrap()
        };
        for table in ["apply t0 ", "apply t1 ", "apply t2 ", "apply t3 "] {
            assert_eq!(stage_of(table), 0);
        }
        assert_eq!(stage_of("apply t4 "), 1);
        assert_eq!(stage_of("apply t5 "), 2);
    }

    #[test]
    fn stages_run_out() {
        let front = format!("header h {{ f 8; }} first h; {}", declared(0..26));
        assert!(lay(format!("{front} do {{ {} }}", applied(0..12)).as_bytes()).is_ok());
        let source = format!("{front} do {{ {} }}", applied(0..13));
        assert_eq!(refused(&source), (10, "apply t12;  }"));
        // What stands later in the row may stand earlier in the source.
        let source = format!(
            "{front} do {{ if f == 1 {{ {} }} else {{ {} }} apply t25; }}",
            applied(0..12),
            applied(12..25),
        );
        assert_eq!(refused(&source), (10, "apply t24;  } apply t25; }"));
    }

    #[test]
    fn nodes_run_out() {
        let many = |count: usize| {
            format!(
                "header h{{f 8;}}first h;do{{{}}}",
                "if f==1{}".repeat(count)
            )
        };
        assert_eq!(lay(many(8).as_bytes()).unwrap().lines().count(), 511);
        assert_eq!(lay(many(9).as_bytes()), Err(Fault::new(10, 34)));
        assert_eq!(lay(many(60).as_bytes()), Err(Fault::new(10, 565)));
        let sets =
            |count: usize| format!("header h{{f 8;}}first h;do{{{}}}", "set f=1;".repeat(count));
        assert_eq!(lay(sets(511).as_bytes()).unwrap().lines().count(), 512);
        assert_eq!(refused(&sets(512)), (10, "}"));
        assert_eq!(refused(&sets(513)), (10, "set f=1;}"));
    }
}
