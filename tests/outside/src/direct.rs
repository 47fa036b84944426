//! The direct run: the equations of document 000, composed over rows as document 01 reads them, by
//! the structure of the statements. No line, reach or image occurs here.

use crate::answer::{refusal, Outcome};
use crate::design::{Action, Design, Step, Term};
use crate::division::{modulus, quotient, remainder};
use crate::row;
use crate::state::{self, State, BEGINNING, OUTPUTS, VARIABLES};
use crate::tree::{Binary, Unary};
use crate::verdict::verdict;

/// What becomes of a statement that is started or resumed.
enum Run {
    Passed,
    /// The wait with this number is reached.
    Reached(usize),
}

/// What a cycle has at hand: the data inputs, and the outputs and variables, on which an
/// assignment "acts immediately". `way` "lists the statements it performed".
struct Memory<'a> {
    inputs: &'a [i32],
    outputs: Vec<i32>,
    variables: Vec<i32>,
    way: Vec<usize>,
}

/// The fresh state from the text.
pub fn direct_fresh(text: &[u8]) -> Outcome<State> {
    let design = verdict(text)?;
    Ok(fresh(&design))
}

/// The fresh state of a design.
pub fn fresh(design: &Design) -> State {
    let outputs = design.outputs.iter().copied();
    let variables = design.variables.iter().copied();
    state::fresh(outputs, variables)
}

/// One cycle from the text; answers the number of lines performed.
pub fn direct(text: &[u8], state: &mut State, inputs: &[i32], outputs: &mut [i32]) -> Outcome<u32> {
    let design = verdict(text)?;
    let way = cycle(&design, state, inputs, outputs)?;
    Ok(way.len() as u32)
}

/// One cycle of a design; answers its way. "A refused operator (16) refuses the row, [..] all that
/// is kept is then as before the row"; a zero divisor (18) likewise.
pub fn cycle(
    design: &Design,
    state: &mut State,
    inputs: &[i32],
    outputs: &mut [i32],
) -> Outcome<Vec<usize>> {
    let kinds = design.inputs.iter().copied();
    row::check(inputs, kinds, outputs.len(), design.outputs.len())?;
    state::check(
        state,
        design.outputs.iter().map(|slot| slot.kind),
        design.variables.iter().map(|slot| slot.kind),
        |number| design.is_wait(number),
    )?;
    let mut memory = Memory {
        inputs,
        outputs: state[OUTPUTS..VARIABLES].to_vec(),
        variables: state[VARIABLES..].to_vec(),
        way: Vec::new(),
    };
    let place = (state[0] != BEGINNING).then_some(state[0] as usize);
    let wait = memory.process(&design.body, place)?;
    state[0] = wait as i32;
    state[OUTPUTS..VARIABLES].copy_from_slice(&memory.outputs);
    state[VARIABLES..].copy_from_slice(&memory.variables);
    // "the output row gets all outputs, what the cycle assigned included."
    outputs.copy_from_slice(&memory.outputs[..outputs.len()]);
    Ok(memory.way)
}

impl Memory<'_> {
    /// "the body is started, or resumed at the wait that is the place; whenever passed, it is
    /// started again without stopping." "The wait reached becomes the place and ends the cycle".
    fn process(&mut self, body: &[Step], place: Option<usize>) -> Outcome<usize> {
        let mut run = match place {
            None => self.start_all(body)?,
            Some(wait) => self.resume_all(body, wait)?,
        };
        loop {
            match run {
                Run::Reached(wait) => return Ok(wait),
                Run::Passed => run = self.start_all(body)?,
            }
        }
    }

    /// "A sequence goes from part to part while they are passed".
    fn start_all(&mut self, parts: &[Step]) -> Outcome<Run> {
        for part in parts {
            if let Run::Reached(wait) = self.start(part)? {
                return Ok(Run::Reached(wait));
            }
        }
        Ok(Run::Passed)
    }

    /// "resumed, it begins at the part with the wait."
    fn resume_all(&mut self, parts: &[Step], wait: usize) -> Outcome<Run> {
        let holds = |part: &Step| (part.number..part.end).contains(&wait);
        let Some(index) = parts.iter().position(holds) else {
            return Ok(Run::Passed);
        };
        match self.resume(&parts[index], wait)? {
            Run::Reached(wait) => Ok(Run::Reached(wait)),
            Run::Passed => self.start_all(&parts[index + 1..]),
        }
    }

    fn start(&mut self, step: &Step) -> Outcome<Run> {
        let number = step.number;
        match &step.action {
            // "An assignment acts immediately and is passed, as is null."
            Action::Output { index, value } => {
                self.way.push(number);
                self.outputs[*index] = self.value(value, number)?;
                Ok(Run::Passed)
            }
            Action::Variable { index, value } => {
                self.way.push(number);
                self.variables[*index] = self.value(value, number)?;
                Ok(Run::Passed)
            }
            Action::Null => {
                self.way.push(number);
                Ok(Run::Passed)
            }
            // "A wait is reached when started, passed when resumed."
            Action::Wait => {
                self.way.push(number);
                Ok(Run::Reached(number))
            }
            // "An if takes the branch that its condition picks [..] and is passed with it; a
            // missing else is passed."
            Action::If {
                condition,
                then,
                otherwise,
            } => {
                if self.test(condition, number)? {
                    self.start_all(then)
                } else {
                    self.start_all(otherwise.as_deref().unwrap_or(&[]))
                }
            }
            Action::While { condition, body } => self.tested(number, condition, body),
        }
    }

    fn resume(&mut self, step: &Step, wait: usize) -> Outcome<Run> {
        match &step.action {
            // "or, resumed, the one with the wait".
            Action::If {
                then, otherwise, ..
            } => {
                let holds = |part: &Step| (part.number..part.end).contains(&wait);
                if then.iter().any(holds) {
                    self.resume_all(then, wait)
                } else {
                    self.resume_all(otherwise.as_deref().unwrap_or(&[]), wait)
                }
            }
            // "Resumed, it resumes its body. Whenever its body is passed, it tests again."
            Action::While { condition, body } => match self.resume_all(body, wait)? {
                Run::Reached(wait) => Ok(Run::Reached(wait)),
                Run::Passed => self.tested(step.number, condition, body),
            },
            _ => Ok(Run::Passed),
        }
    }

    /// "A while, started, tests its condition: false, it is passed; true, its body is started."
    fn tested(&mut self, number: usize, condition: &Term, body: &[Step]) -> Outcome<Run> {
        while self.test(condition, number)? {
            if let Run::Reached(wait) = self.start_all(body)? {
                return Ok(Run::Reached(wait));
            }
        }
        Ok(Run::Passed)
    }

    /// The way lists "an if or while at each test".
    fn test(&mut self, condition: &Term, number: usize) -> Outcome<bool> {
        self.way.push(number);
        Ok(self.value(condition, number)? == 1)
    }

    /// The value of an expression: "Both operands are always evaluated, left first", and then the
    /// operator. Booleans are 0 and 1.
    fn value(&self, term: &Term, number: usize) -> Outcome<i32> {
        let exact = match term {
            Term::Integer(value) | Term::StdLogic(value) => return Ok(*value),
            Term::Input(index) => return Ok(self.inputs[*index]),
            Term::Variable(index) => return Ok(self.variables[*index]),
            Term::Unary(operator, operand) => {
                let operand = i64::from(self.value(operand, number)?);
                match operator {
                    Unary::Sign => -operand,
                    Unary::Not => 1 - operand,
                }
            }
            Term::Binary(operator, left, right) => {
                let left = i64::from(self.value(left, number)?);
                let right = i64::from(self.value(right, number)?);
                // "Turned away: 18, a zero divisor, with the line as place".
                applied(*operator, left, right).ok_or(refusal(18, number))?
            }
        };
        // 16: "result of `+`, `-` or sign outside integer", at the statement; so are "a product
        // outside integer and the least integer divided by -1" (change request 2).
        i32::try_from(exact).map_err(|_| refusal(16, number))
    }
}

/// The exact result of an operator; none for a zero divisor.
fn applied(operator: Binary, left: i64, right: i64) -> Option<i64> {
    let divides = matches!(operator, Binary::Divide | Binary::Mod | Binary::Rem);
    if divides && right == 0 {
        return None;
    }
    Some(match operator {
        Binary::Plus => left + right,
        Binary::Minus => left - right,
        Binary::Times => left * right,
        Binary::Divide => quotient(left, right),
        Binary::Mod => modulus(left, right),
        Binary::Rem => remainder(left, right),
        Binary::Equal => i64::from(left == right),
        Binary::Unequal => i64::from(left != right),
        Binary::Less => i64::from(left < right),
        Binary::LessEqual => i64::from(left <= right),
        Binary::Greater => i64::from(left > right),
        Binary::GreaterEqual => i64::from(left >= right),
        Binary::And => i64::from(left == 1 && right == 1),
        Binary::Or => i64::from(left == 1 || right == 1),
        Binary::Xor => i64::from(left != right),
    })
}
