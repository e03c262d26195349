//! The statements of a source: what stands in its `do`.

use super::random::Random;
use super::source::{Profile, Writer};

enum Statement {
    Act {
        add: bool,
        field: usize,
        operand: Operand,
    },
    Apply(usize),
    If {
        field: usize,
        less: bool,
        operand: Operand,
        yes: Block,
        no: Option<Block>,
    },
}

type Block = Vec<Statement>;

#[derive(Clone, Copy)]
enum Operand {
    Number(u32),
    Field(usize),
}

impl Writer<'_> {
    pub fn do_block(&mut self) {
        let mut statements = match self.profile {
            Profile::Tiny => self.block_of(3, [2, 2, 1, 2]),
            Profile::Usual | Profile::Large => {
                let length = self.random.between(0, 12);
                let weights = *self
                    .random
                    .pick(&[[3, 2, 3, 3], [1, 1, 6, 1], [1, 1, 2, 6]]);
                self.block_of(length, weights)
            }
            Profile::Placed => self.placed(),
            Profile::Switch => {
                let length = self.random.between(1, 7);
                self.block_of(length, [3, 3, 4, 3])
            }
        };
        if self.profile == Profile::Switch && self.random.chance(60) {
            let operand = Operand::Number(self.random.between(1, 255) as u32);
            statements.insert(
                0,
                Statement::Act {
                    add: false,
                    field: 0,
                    operand,
                },
            );
        }
        // Most of the time a source should be placed.
        if self.profile != Profile::Placed && self.random.chance(90) {
            while nodes(&statements, 1) > 512 {
                statements.pop();
            }
        }
        if self.likely_slip() {
            let depth = self.random.between(9, 10);
            let place = self.random.between(0, statements.len());
            let too_deep = self.chain(1, depth, &mut u64::MAX.clone());
            statements.insert(place, too_deep);
        }
        if !self.model.tables.is_empty() && self.likely_slip() {
            // The table may have been applied before, on some path or on none.
            let table = self.random.below(self.model.tables.len());
            statements.push(Statement::Apply(table));
        }
        self.put("do");
        self.write_block(&statements);
    }

    fn block_of(&mut self, length: usize, weights: [usize; 4]) -> Block {
        self.block(1, length, weights, &mut 0)
    }

    /// Statements that come near the limits of placement.
    fn placed(&mut self) -> Block {
        let applied = &mut 0;
        match self.random.below(7) {
            // As many nodes as there may be, or a few more or less: each set in front is one more.
            0 => {
                let length = self.random.between(0, 6);
                let mut statements = self.block(1, length, [1, 1, 2, 6], applied);
                while nodes(&statements, 1) > 516 {
                    statements.pop();
                }
                let aim = self.random.between(509, 516);
                let missing = aim.saturating_sub(nodes(&statements, 1));
                let mut front: Block = (0..missing).map(|_| self.action()).collect();
                front.append(&mut statements);
                front
            }
            // Tables in a row, about as many as there are stages.
            1 => {
                let length = self.random.between(9, 16);
                self.block(1, length, [1, 0, 14, 1], applied)
            }
            // A stage that is full, or nearly.
            2 => {
                let count = self.random.between(60, 66);
                let mut statements: Block = (0..count).map(|_| self.action()).collect();
                let length = self.random.between(1, 6);
                statements.append(&mut self.block(1, length, [1, 1, 4, 4], applied));
                statements
            }
            // Tables on many paths that all start from one stage.
            3 => {
                let depth = self.random.between(3, 8);
                vec![self.chain(1, depth, applied)]
            }
            // Branches in a row: their paths double each time.
            4 => {
                let count = *self.random.pick(&[4, 6, 7, 8, 9, 10, 60]);
                (0..count)
                    .map(|_| {
                        let length = self.random.below(2);
                        let yes = self.block(2, length, [3, 2, 3, 0], &mut (*applied).clone());
                        self.branch(yes, None)
                    })
                    .collect()
            }
            // Two long rows of tables on two paths, and something behind them.
            5 => {
                let weights = [1, 0, 14, 1];
                let before = *applied;
                let length = self.random.between(8, 14);
                let yes = self.block(2, length, weights, applied);
                let applied_by_no = &mut before.clone();
                let length = self.random.between(8, 14);
                let no = self.block(2, length, weights, applied_by_no);
                *applied |= *applied_by_no;
                let mut statements = vec![self.branch(yes, Some(no))];
                let length = self.random.between(0, 4);
                statements.append(&mut self.block(1, length, [1, 1, 4, 1], applied));
                statements
            }
            _ => {
                let length = self.random.between(10, 40);
                self.block(1, length, [6, 4, 3, 1], applied)
            }
        }
    }

    /// Nested branches, each with a table or two on its way.
    fn chain(&mut self, depth: usize, limit: usize, applied: &mut u64) -> Statement {
        let before = *applied;
        let length = self.random.between(0, 2);
        let mut yes = self.block(depth + 1, length, [1, 0, 5, 0], applied);
        let applied_by_no = &mut before.clone();
        let mut no = Vec::new();
        if depth + 1 < limit {
            no.push(self.chain(depth + 1, limit, applied_by_no));
        }
        if self.random.chance(60) {
            no.append(&mut self.block(depth + 1, 1, [0, 0, 1, 0], applied_by_no));
        }
        *applied |= *applied_by_no;
        if self.random.chance(50) {
            std::mem::swap(&mut yes, &mut no);
        }
        self.branch(yes, Some(no))
    }

    /// A block of about so many statements, with the weights of set, add, apply and if. `applied`
    /// are the tables that may have been applied.
    fn block(
        &mut self,
        depth: usize,
        length: usize,
        weights: [usize; 4],
        applied: &mut u64,
    ) -> Block {
        let mut block = Vec::new();
        for _ in 0..length {
            match self.random.weighted(&weights) {
                2 => {
                    if let Some(table) = self.free_table(applied) {
                        block.push(Statement::Apply(table));
                    }
                }
                3 => {
                    let limit = if depth == 8 && self.slip() { 9 } else { 8 };
                    if depth >= limit {
                        continue;
                    }
                    let before = *applied;
                    // Once in a while, as deep as it goes.
                    let deep = self.random.chance(4);
                    let weights = if deep { [1, 0, 1, 12] } else { weights };
                    let inner = |random: &mut Random| {
                        if deep {
                            random.between(1, 2)
                        } else {
                            random.below(length / 2 + 1)
                        }
                    };
                    let yes_length = inner(self.random);
                    let yes = self.block(depth + 1, yes_length, weights, applied);
                    let no = if self.random.chance(50) {
                        let no_length = inner(self.random);
                        let applied_by_no = &mut before.clone();
                        let no = self.block(depth + 1, no_length, weights, applied_by_no);
                        *applied |= *applied_by_no;
                        Some(no)
                    } else {
                        None
                    };
                    block.push(self.branch(yes, no));
                }
                _ => block.push(self.action()),
            }
        }
        block
    }

    /// A table that was not applied yet, or any if something goes wrong.
    fn free_table(&mut self, applied: &mut u64) -> Option<usize> {
        let tables = self.model.tables.len();
        let slip = tables > 0 && self.slip();
        let free: Vec<usize> = (0..tables)
            .filter(|table| slip || *applied >> table & 1 == 0)
            .collect();
        if free.is_empty() {
            return None;
        }
        let table = *self.random.pick(&free);
        *applied |= 1 << table;
        Some(table)
    }

    fn action(&mut self) -> Statement {
        let field = self.any_field();
        let add = self.random.chance(40);
        Statement::Act {
            add,
            field,
            operand: self.operand(field),
        }
    }

    fn branch(&mut self, yes: Block, no: Option<Block>) -> Statement {
        let field = self.any_field();
        let operand = self.operand(field);
        if let Operand::Number(number) = operand {
            self.interesting(field, number);
        }
        let less = self.random.chance(40);
        Statement::If {
            field,
            less,
            operand,
            yes,
            no,
        }
    }

    fn operand(&mut self, field: usize) -> Operand {
        match self.random.below(10) {
            0..3 => Operand::Field(self.any_field()),
            3 => Operand::Number(self.random.number(32)),
            _ => {
                let width = self.model.fields[field].width;
                Operand::Number(self.random.number(width))
            }
        }
    }

    fn write_block(&mut self, statements: &[Statement]) {
        self.put("{");
        for statement in statements {
            self.statement(statement);
        }
        self.put("}");
    }

    fn statement(&mut self, statement: &Statement) {
        match statement {
            Statement::Act {
                add,
                field,
                operand,
            } => {
                self.put(if *add { "add" } else { "set" });
                self.field(*field);
                self.put("=");
                self.write_operand(*operand);
                self.put(";");
            }
            Statement::Apply(table) => {
                self.put("apply");
                if !self.slip() {
                    let name = self.model.tables[*table].name.clone();
                    self.put(&name);
                } else if self.random.chance(50) {
                    self.unknown_name();
                } else {
                    self.long_name();
                }
                self.put(";");
            }
            Statement::If {
                field,
                less,
                operand,
                yes,
                no,
            } => {
                self.put("if");
                self.field(*field);
                self.put(if *less { "<" } else { "==" });
                self.write_operand(*operand);
                self.write_block(yes);
                if let Some(no) = no {
                    self.put("else");
                    self.write_block(no);
                }
            }
        }
    }

    fn write_operand(&mut self, operand: Operand) {
        match operand {
            Operand::Number(_) if self.slip() => self.large_number(),
            Operand::Number(number) => self.number(u64::from(number)),
            Operand::Field(field) => self.field(field),
        }
    }
}

/// How many nodes these statements make, with so many nodes behind them on each path.
fn nodes(statements: &[Statement], behind: usize) -> usize {
    statements
        .iter()
        .rev()
        .fold(behind, |behind, statement| match statement {
            Statement::If { yes, no, .. } => {
                let no = no.as_deref().unwrap_or_default();
                nodes(yes, behind)
                    .saturating_add(nodes(no, behind))
                    .saturating_add(1)
            }
            _ => behind.saturating_add(1),
        })
}
