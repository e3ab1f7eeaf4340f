//! A small interpreter of statements, written with nothing but std, for bench/activities.py.
//!
//! `activities TURNS SCRIPT ITEM...` has the component of the sheet that bench/activities.py writes, with a calculation of the
//! items, runs its activity for each line of the script, and prints what `eds run` prints. Statements are a tree and variables
//! are values of three kinds; a number is checked on each step and what is stored by its type, and each statement and turn
//! counts against the budget of its event.

use std::fmt::Write as _;

const BUDGET: u32 = 100_000;
const NAMES: [&str; 5] = ["i", "n", "m", "on", "text"];

#[derive(Clone)]
enum Value {
    Number(i128),
    Truth(bool),
    Text(String),
}

enum Type {
    Integer(i128, i128),
    Truth,
    Text(usize),
}

#[derive(Clone, Copy)]
enum Operator {
    Add,
    Subtract,
    Multiply,
}

enum Operand {
    Value(Value),
    Variable(usize),
}

enum Item {
    Operand(Operand),
    Operator(Operator),
}

enum Statement {
    Assign(usize, Operand),
    Math(usize, Vec<Item>),
    Iterate(usize, Operand, Operand, i128, Vec<Statement>),
}

#[derive(Debug)]
enum Halt {
    OutOfRange,
    Budget,
}

struct Component {
    types: Vec<Type>,
    variables: Vec<Value>,
    /// The numbers of a calculation that wait for an operator.
    numbers: Vec<i128>,
    left: u32,
}

impl Type {
    fn has(&self, value: &Value) -> bool {
        match (self, value) {
            (Type::Integer(least, most), Value::Number(number)) => least <= number && number <= most,
            (Type::Truth, Value::Truth(_)) => true,
            (Type::Text(size), Value::Text(text)) => text.len() <= *size && !text.contains('\0'),
            _ => false,
        }
    }
}

impl Component {
    fn count(&mut self) -> Result<(), Halt> {
        self.left = self.left.checked_sub(1).ok_or(Halt::Budget)?;
        Ok(())
    }

    fn store(&mut self, at: usize, value: Value) -> Result<(), Halt> {
        if !self.types[at].has(&value) {
            return Err(Halt::OutOfRange);
        }
        self.variables[at] = value;
        Ok(())
    }

    fn value_of<'a>(&'a self, operand: &'a Operand) -> &'a Value {
        match operand {
            Operand::Value(value) => value,
            Operand::Variable(at) => &self.variables[*at],
        }
    }

    fn number_of(&self, operand: &Operand) -> Result<i128, Halt> {
        match self.value_of(operand) {
            Value::Number(number) => Ok(*number),
            _ => Err(Halt::OutOfRange),
        }
    }

    fn operate(&mut self, operator: Operator) -> Option<i128> {
        let (other, one) = (self.numbers.pop()?, self.numbers.pop()?);
        match operator {
            Operator::Add => one.checked_add(other),
            Operator::Subtract => one.checked_sub(other),
            Operator::Multiply => one.checked_mul(other),
        }
    }

    fn calculate(&mut self, items: &[Item]) -> Result<i128, Halt> {
        self.numbers.clear();
        for item in items {
            let number = match item {
                Item::Operand(operand) => self.number_of(operand)?,
                Item::Operator(operator) => self.operate(*operator).ok_or(Halt::OutOfRange)?,
            };
            self.numbers.push(number);
        }
        match self.numbers[..] {
            [number] => Ok(number),
            _ => Err(Halt::OutOfRange),
        }
    }

    fn iterate(&mut self, at: usize, first: i128, last: i128, step: i128, body: &[Statement]) -> Result<(), Halt> {
        let mut next = Some(first);
        while let Some(number) = next.filter(|number| if step < 0 { last <= *number } else { *number <= last }) {
            self.count()?;
            self.store(at, Value::Number(number))?;
            self.run(body)?;
            next = number.checked_add(step);
        }
        Ok(())
    }

    fn run(&mut self, statements: &[Statement]) -> Result<(), Halt> {
        for statement in statements {
            self.count()?;
            match statement {
                Statement::Assign(at, operand) => self.store(*at, self.value_of(operand).clone())?,
                Statement::Math(at, items) => {
                    let number = self.calculate(items)?;
                    self.store(*at, Value::Number(number))?;
                }
                Statement::Iterate(at, first, last, step, body) => {
                    let (first, last) = (self.number_of(first)?, self.number_of(last)?);
                    self.iterate(*at, first, last, *step, body)?;
                }
            }
        }
        Ok(())
    }
}

fn number(text: &str) -> Operand {
    Operand::Value(Value::Number(text.parse().expect("a number")))
}

fn item(text: &str) -> Item {
    match text {
        "add" => Item::Operator(Operator::Add),
        "subtract" => Item::Operator(Operator::Subtract),
        "multiply" => Item::Operator(Operator::Multiply),
        _ => Item::Operand(NAMES.iter().position(|name| *name == text).map_or_else(|| number(text), Operand::Variable)),
    }
}

fn activity(turns: &str, items: &[String]) -> Vec<Statement> {
    let math = Statement::Math(1, items.iter().map(|text| item(text)).collect());
    let assign = Statement::Assign(2, Operand::Variable(1));
    vec![Statement::Iterate(0, number("1"), number(turns), 1, vec![math, assign])]
}

fn component() -> Component {
    let word = || Type::Integer(0, u64::MAX.into());
    let zero = || Value::Number(0);
    Component {
        types: vec![word(), word(), word(), Type::Truth, Type::Text(8)],
        variables: vec![zero(), zero(), zero(), Value::Truth(false), Value::Text(String::new())],
        numbers: vec![],
        left: 0,
    }
}

fn main() {
    let words: Vec<String> = std::env::args().skip(1).collect();
    let activity = activity(&words[0], &words[2..]);
    let script = std::fs::read_to_string(&words[1]).expect("a script");
    let mut component = component();
    let mut report = String::new();
    for line in script.lines() {
        assert_eq!(line, "cmd Load/C:q go {}");
        component.left = BUDGET;
        if let Err(halt) = component.run(&activity) {
            let _ = writeln!(report, "0 halt Load/C m {halt:?}");
        }
    }
    report.push_str("end 0\nstate Load/C m S\n");
    for (name, value) in NAMES.iter().zip(&component.variables) {
        let _ = match value {
            Value::Number(number) => writeln!(report, "var Load/C {name} {number}"),
            Value::Truth(truth) => writeln!(report, "var Load/C {name} {truth}"),
            Value::Text(text) => writeln!(report, "var Load/C {name} {text:?}"),
        };
    }
    print!("{report}");
}
