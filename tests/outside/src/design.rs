//! What an accepted text means, as data: inputs, outputs, variables and numbered statements, with
//! indices in place of names.

use crate::clock::clock;
use crate::declarations::Declarations;
use crate::lexer::Token;
use crate::tree::{Binary, Expression, Form, Role, Statement, Tree, Type, Unary};

/// An output or a variable: its type and its initial value.
#[derive(Clone, Copy, Debug, PartialEq, Eq)]
pub struct Slot {
    pub kind: Type,
    pub initial: i32,
}

/// An accepted text. `inputs` are "the data inputs (all but the clock)".
#[derive(Clone, Debug)]
pub struct Design {
    pub inputs: Vec<Type>,
    pub outputs: Vec<Slot>,
    pub variables: Vec<Slot>,
    /// The outputs' names in lower case.
    pub output_names: Vec<String>,
    pub body: Vec<Step>,
}

/// A statement with its "number in text order from 0"; `end` is the number behind its last part.
#[derive(Clone, Debug)]
pub struct Step {
    pub number: usize,
    pub end: usize,
    pub action: Action,
}

#[derive(Clone, Debug)]
pub enum Action {
    Output {
        index: usize,
        value: Term,
    },
    Variable {
        index: usize,
        value: Term,
    },
    Null,
    Wait,
    If {
        condition: Term,
        then: Vec<Step>,
        otherwise: Option<Vec<Step>>,
    },
    While {
        condition: Term,
        body: Vec<Step>,
    },
}

/// An expression with indices.
#[derive(Clone, Debug)]
pub enum Term {
    Integer(i32),
    StdLogic(i32),
    Input(usize),
    Variable(usize),
    Unary(Unary, Box<Term>),
    Binary(Binary, Box<Term>, Box<Term>),
}

impl Design {
    /// All statements in text order, so that the k-th has number k.
    pub fn steps(&self) -> Vec<&Step> {
        let mut list = Vec::new();
        gather(&self.body, &mut list);
        list
    }

    /// Whether this statement is a wait.
    pub fn is_wait(&self, number: usize) -> bool {
        let steps = self.steps();
        let step = steps.get(number);
        step.is_some_and(|step| matches!(step.action, Action::Wait))
    }
}

fn gather<'a>(steps: &'a [Step], list: &mut Vec<&'a Step>) {
    for step in steps {
        list.push(step);
        match &step.action {
            Action::If {
                then, otherwise, ..
            } => {
                gather(then, list);
                gather(otherwise.as_deref().unwrap_or(&[]), list);
            }
            Action::While { body, .. } => gather(body, list),
            _ => {}
        }
    }
}

/// The design of a tree without offences.
pub fn elaborate(tree: &Tree, declarations: &Declarations) -> Design {
    let clock = clock(tree, declarations).map(|clock| clock.name.start);
    let mut indices = Indices {
        declarations,
        clock,
        count: 0,
    };
    let body = indices.steps(&tree.body);
    let data = |role: Role| {
        let declared = declarations.list.iter();
        declared.filter(move |d| d.role == role && Some(d.name.start) != clock)
    };
    let output_names = data(Role::Output).map(|declared| {
        let bytes = declared.name.bytes(declarations.text);
        String::from_utf8_lossy(bytes).to_lowercase()
    });
    Design {
        inputs: data(Role::Input).map(|declared| declared.kind).collect(),
        outputs: slots(tree, Role::Output),
        variables: slots(tree, Role::Variable),
        output_names: output_names.collect(),
        body,
    }
}

fn slots(tree: &Tree, role: Role) -> Vec<Slot> {
    let mut slots = Vec::new();
    for group in tree.groups().filter(|group| group.role == role) {
        let initial = group.initial.map_or(0, |initial| initial.value);
        let kind = group.kind;
        slots.extend(group.names.iter().map(|_| Slot { kind, initial }));
    }
    slots
}

/// Gives statements their numbers and names their indices.
struct Indices<'a> {
    declarations: &'a Declarations<'a>,
    clock: Option<usize>,
    count: usize,
}

impl Indices<'_> {
    /// The index of a name among the names of its role, the clock left out.
    fn index(&self, name: Token) -> (Role, usize) {
        let same = |other: Token| other.same_name(&name, self.declarations.text);
        let list = &self.declarations.list;
        let found = list.iter().find(|declared| same(declared.name));
        let found = found.expect("every name of a tree without offences is declared");
        let before = list.iter().filter(|declared| {
            declared.role == found.role
                && declared.name.start < found.name.start
                && Some(declared.name.start) != self.clock
        });
        (found.role, before.count())
    }

    fn steps(&mut self, statements: &[Statement]) -> Vec<Step> {
        statements.iter().map(|s| self.step(s)).collect()
    }

    fn step(&mut self, statement: &Statement) -> Step {
        let number = self.count;
        self.count += 1;
        let index = self.target(statement);
        let action = match &statement.form {
            Form::SignalAssignment(value) => Action::Output {
                index,
                value: self.term(value),
            },
            Form::VariableAssignment(value) => Action::Variable {
                index,
                value: self.term(value),
            },
            Form::Null => Action::Null,
            Form::Wait { .. } => Action::Wait,
            Form::If {
                condition,
                then,
                otherwise,
            } => Action::If {
                condition: self.term(condition),
                then: self.steps(then),
                otherwise: otherwise.as_ref().map(|list| self.steps(list)),
            },
            Form::While { condition, body } => Action::While {
                condition: self.term(condition),
                body: self.steps(body),
            },
        };
        Step {
            number,
            end: self.count,
            action,
        }
    }

    /// The index of the target of an assignment, else 0.
    fn target(&self, statement: &Statement) -> usize {
        match statement.form {
            Form::SignalAssignment(_) | Form::VariableAssignment(_) => {
                self.index(statement.first).1
            }
            _ => 0,
        }
    }

    fn term(&self, expression: &Expression) -> Term {
        match expression {
            Expression::Integer(value) => Term::Integer(*value),
            Expression::StdLogic(value) => Term::StdLogic(*value),
            Expression::Name(name) => match self.index(*name) {
                (Role::Variable, index) => Term::Variable(index),
                (_, index) => Term::Input(index),
            },
            Expression::Unary {
                operator, operand, ..
            } => Term::Unary(*operator, Box::new(self.term(operand))),
            Expression::Binary {
                operator,
                left,
                right,
                ..
            } => Term::Binary(
                *operator,
                Box::new(self.term(left)),
                Box::new(self.term(right)),
            ),
        }
    }
}
