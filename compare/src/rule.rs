//! Reading a rule: bytes to a tree, or one of the refusals 1 to 9 with its place.
//!
//! The reader goes through the file once, from the left, and stops at the first byte that breaks
//! a row. Where one byte breaks several rows, the lowest number is looked for first.

use crate::answer::Refusal;
use crate::law::*;

#[derive(Clone, Debug, PartialEq, Eq)]
pub enum Expression {
    Variable(usize),
    Word(u32),
    Bit(bool),
    Operation(u8, Vec<Expression>),
}

pub type Block = Vec<Statement>;

#[derive(Clone, Debug, PartialEq, Eq)]
pub enum Statement {
    Assign(usize, Expression),
    Skip,
    If(Expression, Block, Block),
}

#[derive(Clone, Debug, PartialEq, Eq)]
pub struct Rule {
    /// What the kind bytes say; their count is V.
    pub variables: Vec<Variable>,
    pub block: Block,
}

impl Rule {
    /// A rule whose variables are all results.
    pub fn of_results(kinds: &[Kind], block: Block) -> Rule {
        let variables = kinds.iter().copied().map(Variable::result).collect();
        Rule { variables, block }
    }

    /// The kinds of the variables' figures, whether they are results or not.
    pub fn kinds(&self) -> Vec<Kind> {
        self.variables
            .iter()
            .map(|variable| variable.kind)
            .collect()
    }
}

/// Reads a rule by rows 1 to 9 only. Rows 10 and 11 speak of the circuit: see `circuit::accept`.
pub fn read(bytes: &[u8]) -> Result<Rule, Refusal> {
    read_within(bytes, LIMITS)
}

/// The same where ifs nest as deep as these limits let them.
pub fn read_within(bytes: &[u8], limits: Limits) -> Result<Rule, Refusal> {
    if bytes.len() < RULE_BYTES_MIN || bytes.len() > RULE_BYTES_MAX {
        return Err(Refusal::nowhere(1));
    }
    let mut reader = Reader {
        bytes,
        at: 0,
        variables: Vec::new(),
        limits,
    };
    reader.mark()?;
    reader.kind_bytes()?;
    let block = reader.block(0)?;
    if reader.at < bytes.len() {
        return Err(Refusal::at(9, reader.at));
    }
    Ok(Rule {
        variables: reader.variables,
        block,
    })
}

struct Reader<'a> {
    bytes: &'a [u8],
    /// The place of the byte wanted next.
    at: usize,
    variables: Vec<Variable>,
    limits: Limits,
}

impl Reader<'_> {
    /// Takes the next byte and its place, or refuses by row 4, whose place is the file's length.
    fn take(&mut self) -> Result<(u8, usize), Refusal> {
        match self.bytes.get(self.at) {
            Some(&byte) => {
                self.at += 1;
                Ok((byte, self.at - 1))
            }
            None => Err(Refusal::at(4, self.bytes.len())),
        }
    }

    fn mark(&mut self) -> Result<(), Refusal> {
        for wanted in RULE_MARK {
            let (byte, place) = self.take()?;
            if byte != wanted {
                return Err(Refusal::at(2, place));
            }
        }
        Ok(())
    }

    fn kind_bytes(&mut self) -> Result<(), Refusal> {
        let (count, place) = self.take()?;
        let count = usize::from(count);
        if !(VARIABLES_MIN..=VARIABLES_MAX).contains(&count) {
            return Err(Refusal::at(3, place));
        }
        for _ in 0..count {
            let (byte, place) = self.take()?;
            let variable = Variable::of_byte(byte).ok_or(Refusal::at(3, place))?;
            self.variables.push(variable);
        }
        Ok(())
    }

    /// A block within `ifs` ifs. A block is a loop and only an if goes deeper, so the stack that
    /// reading takes is bounded by the greatest depths, whatever the bytes.
    fn block(&mut self, ifs: usize) -> Result<Block, Refusal> {
        let mut statements = Vec::new();
        loop {
            let (code, place) = self.take()?;
            match code {
                CLOSE => return Ok(statements),
                ASSIGN => {
                    let variable = self.variable()?;
                    let value = self.expression(self.variables[variable].kind, 1)?;
                    statements.push(Statement::Assign(variable, value));
                }
                SKIP => statements.push(Statement::Skip),
                IF => {
                    if ifs + 1 > self.limits.ifs {
                        return Err(Refusal::at(8, place));
                    }
                    let condition = self.expression(Kind::Bit, 1)?;
                    let first = self.block(ifs + 1)?;
                    let second = self.block(ifs + 1)?;
                    statements.push(Statement::If(condition, first, second));
                }
                _ => return Err(Refusal::at(5, place)),
            }
        }
    }

    /// The number byte of a variable.
    fn variable(&mut self) -> Result<usize, Refusal> {
        let (byte, place) = self.take()?;
        let variable = usize::from(byte);
        if variable >= self.variables.len() {
            return Err(Refusal::at(6, place));
        }
        Ok(variable)
    }

    /// An expression of the wanted kind whose code stands `depth` deep.
    fn expression(&mut self, wanted: Kind, depth: usize) -> Result<Expression, Refusal> {
        let (code, place) = self.take()?;
        // What the code alone gives; a variable's kind shows only on its number byte.
        let gives = match code {
            VARIABLE => None,
            WORD => Some(Kind::Word),
            BIT => Some(Kind::Bit),
            _ => match operation(code) {
                Some(row) => Some(row.gives),
                None => return Err(Refusal::at(5, place)),
            },
        };
        if gives.is_some_and(|kind| kind != wanted) {
            return Err(Refusal::at(7, place));
        }
        if depth > EXPRESSION_DEPTH_MAX {
            return Err(Refusal::at(8, place));
        }
        match code {
            VARIABLE => {
                let variable = self.variable()?;
                if self.variables[variable].kind != wanted {
                    return Err(Refusal::at(7, place + 1));
                }
                Ok(Expression::Variable(variable))
            }
            WORD => {
                let mut word = [0u8; 4];
                for byte in &mut word {
                    *byte = self.take()?.0;
                }
                Ok(Expression::Word(u32::from_be_bytes(word)))
            }
            BIT => {
                let (byte, place) = self.take()?;
                match byte {
                    0x00 => Ok(Expression::Bit(false)),
                    0x01 => Ok(Expression::Bit(true)),
                    _ => Err(Refusal::at(5, place)),
                }
            }
            _ => {
                let row = operation(code).expect("an operation, as found above");
                let mut arguments = Vec::new();
                for _ in 0..row.arguments {
                    arguments.push(self.expression(row.takes, depth + 1)?);
                }
                Ok(Expression::Operation(code, arguments))
            }
        }
    }
}

/// The bytes of a rule: what `read` reads back. Limits are not looked at, so that a generator can
/// also make rules that break them.
pub fn bytes_of(rule: &Rule) -> Vec<u8> {
    let mut bytes = RULE_MARK.to_vec();
    bytes.push(rule.variables.len() as u8);
    for variable in &rule.variables {
        bytes.push(variable.byte());
    }
    put_block(&rule.block, &mut bytes);
    bytes
}

fn put_block(block: &Block, bytes: &mut Vec<u8>) {
    for statement in block {
        match statement {
            Statement::Assign(variable, value) => {
                bytes.extend([ASSIGN, *variable as u8]);
                put_expression(value, bytes);
            }
            Statement::Skip => bytes.push(SKIP),
            Statement::If(condition, first, second) => {
                bytes.push(IF);
                put_expression(condition, bytes);
                put_block(first, bytes);
                put_block(second, bytes);
            }
        }
    }
    bytes.push(CLOSE);
}

fn put_expression(expression: &Expression, bytes: &mut Vec<u8>) {
    match expression {
        Expression::Variable(variable) => bytes.extend([VARIABLE, *variable as u8]),
        Expression::Word(word) => {
            bytes.push(WORD);
            bytes.extend(word.to_be_bytes());
        }
        Expression::Bit(bit) => bytes.extend([BIT, u8::from(*bit)]),
        Expression::Operation(code, arguments) => {
            bytes.push(*code);
            for argument in arguments {
                put_expression(argument, bytes);
            }
        }
    }
}
