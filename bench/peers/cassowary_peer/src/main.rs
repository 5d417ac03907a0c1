//! Gives operations to the crate `cassowary`.
//!
//!     cassowary_peer OPERATIONS [read | values]
//!
//! With `read` the operations are read and nothing is solved, so that the reading can be taken off. With `values` the
//! values are printed.
use cassowary::{strength, Constraint, Expression, RelationalOperator, Solver, Term, Variable};
use std::collections::{BTreeMap, HashMap};
use std::error::Error;

const WINDOW: f64 = 1e8;

/// A row: its strength, and a sum of attributes that stands so to a constant.
struct Row {
    strength: f64,
    relation: RelationalOperator,
    constant: f64,
    terms: Vec<(u64, f64)>,
}

enum Operation {
    Var(u64),
    Add(u64, Row),
    Change(u64, Row),
    Edit {
        row: u64,
        strength: f64,
        attribute: u64,
        constant: f64,
    },
    Set(u64, f64),
    Remove(u64),
}

/// The three digits of the priority become the three strengths of the crate's scheme.
fn strength_of(priority: u32, weight: u32) -> f64 {
    if priority == 1000 {
        return strength::REQUIRED;
    }
    let [high, middle, low] = [priority / 100, priority / 10 % 10, priority % 10].map(f64::from);
    strength::create(high, middle, low, f64::from(weight))
}

fn row_of(words: &[&str]) -> Result<Row, Box<dyn Error>> {
    let [priority, weight, relation, constant, terms @ ..] = words else {
        return Err("a row is too short".into());
    };
    let mut sum = Vec::new();
    for pair in terms.chunks_exact(2) {
        sum.push((pair[0].parse()?, pair[1].parse()?));
    }
    Ok(Row {
        strength: strength_of(priority.parse()?, weight.parse()?),
        relation: match *relation {
            "==" => RelationalOperator::Equal,
            "<=" => RelationalOperator::LessOrEqual,
            _ => RelationalOperator::GreaterOrEqual,
        },
        constant: constant.parse()?,
        terms: sum,
    })
}

fn operation(line: &str) -> Result<Operation, Box<dyn Error>> {
    let words: Vec<&str> = line.split_whitespace().collect();
    Ok(match words.as_slice() {
        ["var", attribute] => Operation::Var(attribute.parse()?),
        ["add", row, rest @ ..] => Operation::Add(row.parse()?, row_of(rest)?),
        ["change", row, rest @ ..] => Operation::Change(row.parse()?, row_of(rest)?),
        ["edit", row, priority, attribute, constant] => Operation::Edit {
            row: row.parse()?,
            strength: match *priority {
                "1000" => WINDOW,
                priority => strength_of(priority.parse()?, 1),
            },
            attribute: attribute.parse()?,
            constant: constant.parse()?,
        },
        ["set", row, constant] => Operation::Set(row.parse()?, constant.parse()?),
        ["remove", row] => Operation::Remove(row.parse()?),
        _ => return Err(format!("no operation: {line}").into()),
    })
}

struct Peer {
    solver: Solver,
    variables: BTreeMap<u64, Variable>,
    rows: HashMap<u64, Constraint>,
    edits: HashMap<u64, Variable>,
}

impl Peer {
    fn new() -> Peer {
        Peer {
            solver: Solver::new(),
            variables: BTreeMap::new(),
            rows: HashMap::new(),
            edits: HashMap::new(),
        }
    }

    fn add(&mut self, number: u64, row: &Row) {
        let terms = row.terms.iter().map(|&(attribute, coefficient)| Term {
            variable: self.variables[&attribute],
            coefficient,
        });
        let sum = Expression::new(terms.collect(), -row.constant);
        let constraint = Constraint::new(sum, row.relation, row.strength);
        match self.solver.add_constraint(constraint.clone()) {
            Ok(()) => {
                self.rows.insert(number, constraint);
            }
            Err(error) => println!("refused {number} {error:?}"),
        }
    }

    fn remove(&mut self, number: u64) {
        if let Some(variable) = self.edits.remove(&number) {
            self.solver.remove_edit_variable(variable).expect("an edit is held");
        } else if let Some(constraint) = self.rows.remove(&number) {
            self.solver.remove_constraint(&constraint).expect("a row is held");
        }
    }

    fn set(&mut self, number: u64, constant: f64) {
        let variable = self.edits[&number];
        self.solver.suggest_value(variable, constant).expect("an edit is held");
    }

    fn follow(&mut self, operation: &Operation) {
        match operation {
            Operation::Var(attribute) => {
                self.variables.insert(*attribute, Variable::new());
            }
            Operation::Add(number, row) => self.add(*number, row),
            Operation::Change(number, row) => {
                self.remove(*number);
                self.add(*number, row);
            }
            Operation::Edit {
                row,
                strength,
                attribute,
                constant,
            } => {
                let variable = self.variables[attribute];
                self.solver.add_edit_variable(variable, *strength).expect("an edit is new");
                self.edits.insert(*row, variable);
                self.set(*row, *constant);
            }
            Operation::Set(number, constant) => self.set(*number, *constant),
            Operation::Remove(number) => self.remove(*number),
        }
    }
}

fn main() -> Result<(), Box<dyn Error>> {
    let mut words = std::env::args().skip(1);
    let path = words.next().ok_or("which operations?")?;
    let what = words.next().unwrap_or_default();
    let text = std::fs::read_to_string(path)?;
    let operations = text.lines().map(operation).collect::<Result<Vec<_>, _>>()?;
    if what == "read" {
        return Ok(());
    }
    let mut peer = Peer::new();
    operations.iter().for_each(|operation| peer.follow(operation));
    for (attribute, variable) in &peer.variables {
        let value = peer.solver.get_value(*variable);
        if what == "values" {
            println!("value {attribute} {value:?}");
        }
    }
    Ok(())
}
