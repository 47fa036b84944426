//! The direct run against the published equations: document 000, B.3, transcribed one by one, with
//! a fault as a further outcome. Three are read by the wording of 5.3 to 5.5 where B.3 is misprinted:
//! SIGNAL_ASSIGNMENT, SEQ_AB and SEQ_AC. CLOSE_C hands out the new outputs, as document 01 asks.

use reference::design::{Action, Design, Step, Term};
use reference::direct;
use reference::generate::random::{rounds, seed, Random};
use reference::generate::{rows, texts};
use reference::state::{OUTPUTS, VARIABLES};
use reference::tree::{Binary, Unary};
use reference::verdict::verdict;

/// The control state of a statement: `one`, `INL`, `INR`.
#[derive(Clone, Debug, PartialEq, Eq)]
enum Position {
    One,
    Left(Box<Position>),
    Right(Box<Position>),
}

fn left(position: Position) -> Position {
    Position::Left(Box::new(position))
}

fn right(position: Position) -> Position {
    Position::Right(Box::new(position))
}

/// What a statement maps: the output state and the variable state.
#[derive(Clone, Debug, PartialEq, Eq)]
struct Memory {
    outputs: Vec<i32>,
    variables: Vec<i32>,
}

/// The refusal of an operator, 16 or 18, and the number of its statement.
type Fault = (u32, usize);
type Inputs<'a> = &'a [i32];

/// "iota x omega x phi -> omega x phi", and so on, as 5.2 has them.
type TypeA = Box<dyn Fn(Inputs, Memory) -> Result<Memory, Fault>>;
type TypeB =
    Box<dyn Fn(Inputs, Memory, Option<Position>) -> Result<(Memory, Option<Position>), Fault>>;
type Started = Box<dyn Fn(Inputs, Memory) -> Result<(Memory, Position), Fault>>;
type Resumed = Box<dyn Fn(Inputs, Memory, Position) -> Result<(Memory, Option<Position>), Fault>>;
type TypeC = (Started, Resumed);
type Condition = Box<dyn Fn(Inputs, &Memory) -> Result<bool, Fault>>;

enum Statement {
    A(TypeA),
    B(TypeB),
    C(TypeC),
}

/// A statement and the positions of its waits by their numbers.
struct Built {
    statement: Statement,
    waits: Vec<(usize, Position)>,
}

// Basic statements.

fn signal_assignment(g: impl Fn(Inputs, &Memory) -> Result<Vec<i32>, Fault> + 'static) -> TypeA {
    Box::new(move |si, memory| {
        Ok(Memory {
            outputs: g(si, &memory)?,
            ..memory
        })
    })
}

fn variable_assignment(f: impl Fn(Inputs, &Memory) -> Result<Vec<i32>, Fault> + 'static) -> TypeA {
    Box::new(move |si, memory| {
        Ok(Memory {
            variables: f(si, &memory)?,
            ..memory
        })
    })
}

fn null_statement() -> TypeA {
    Box::new(|_, memory| Ok(memory))
}

fn wait() -> TypeC {
    (
        Box::new(|_, memory| Ok((memory, Position::One))),
        Box::new(|_, memory, _| Ok((memory, None))),
    )
}

// Sequences.

fn seq_aa(pf: TypeA, pg: TypeA) -> TypeA {
    Box::new(move |si, memory| {
        let memory = pf(si, memory)?;
        pg(si, memory)
    })
}

/// By 5.4: from a wait of the second part only that part is evaluated.
fn seq_ab(pf: TypeA, pg: TypeB) -> TypeB {
    Box::new(move |si, memory, ss| match ss {
        None => {
            let memory = pf(si, memory)?;
            pg(si, memory, None)
        }
        Some(ss) => pg(si, memory, Some(ss)),
    })
}

/// By 5.2, the pair of the second part's two functions.
fn seq_ac(pf: TypeA, (pga, pgb): TypeC) -> TypeC {
    (
        Box::new(move |si, memory| {
            let memory = pf(si, memory)?;
            pga(si, memory)
        }),
        pgb,
    )
}

fn seq_ba(pf: TypeB, pg: TypeA) -> TypeB {
    Box::new(move |si, memory, ss| {
        let (memory, ss) = pf(si, memory, ss)?;
        match ss {
            None => Ok((pg(si, memory)?, None)),
            Some(ss) => Ok((memory, Some(ss))),
        }
    })
}

fn seq_bb(pf: TypeB, pg: TypeB) -> TypeB {
    Box::new(move |si, memory, ss12| {
        let first = |memory, ss1| -> Result<(Memory, Option<Position>), Fault> {
            let (memory, ss1) = pf(si, memory, ss1)?;
            match ss1 {
                None => {
                    let (memory, ss2) = pg(si, memory, None)?;
                    Ok((memory, ss2.map(right)))
                }
                Some(ss1) => Ok((memory, Some(left(ss1)))),
            }
        };
        match ss12 {
            None => first(memory, None),
            Some(Position::Left(ss1)) => first(memory, Some(*ss1)),
            Some(Position::Right(ss2)) => {
                let (memory, ss2) = pg(si, memory, Some(*ss2))?;
                Ok((memory, ss2.map(right)))
            }
            Some(Position::One) => unreachable!("a sum has two sides"),
        }
    })
}

fn seq_bc(pf: TypeB, (pga, pgb): TypeC) -> TypeC {
    let shared = std::rc::Rc::new((pf, pga));
    let again = shared.clone();
    (
        Box::new(move |si, memory| {
            let (pf, pga) = &*shared;
            let (memory, ss1) = pf(si, memory, None)?;
            match ss1 {
                None => {
                    let (memory, ss2) = pga(si, memory)?;
                    Ok((memory, right(ss2)))
                }
                Some(ss1) => Ok((memory, left(ss1))),
            }
        }),
        Box::new(move |si, memory, ss12| {
            let (pf, pga) = &*again;
            match ss12 {
                Position::Left(ss1) => {
                    let (memory, ss1) = pf(si, memory, Some(*ss1))?;
                    match ss1 {
                        None => {
                            let (memory, ss2) = pga(si, memory)?;
                            Ok((memory, Some(right(ss2))))
                        }
                        Some(ss1) => Ok((memory, Some(left(ss1)))),
                    }
                }
                Position::Right(ss2) => {
                    let (memory, ss2) = pgb(si, memory, *ss2)?;
                    Ok((memory, ss2.map(right)))
                }
                Position::One => unreachable!("a sum has two sides"),
            }
        }),
    )
}

fn seq_ca((pfa, pfb): TypeC, pg: TypeA) -> TypeC {
    (
        pfa,
        Box::new(move |si, memory, ss| {
            let (memory, ss) = pfb(si, memory, ss)?;
            match ss {
                None => Ok((pg(si, memory)?, None)),
                Some(ss) => Ok((memory, Some(ss))),
            }
        }),
    )
}

fn seq_cb((pfa, pfb): TypeC, pg: TypeB) -> TypeC {
    (
        Box::new(move |si, memory| {
            let (memory, ss1) = pfa(si, memory)?;
            Ok((memory, left(ss1)))
        }),
        Box::new(move |si, memory, ss12| match ss12 {
            Position::Left(ss1) => {
                let (memory, ss1) = pfb(si, memory, *ss1)?;
                match ss1 {
                    None => {
                        let (memory, ss2) = pg(si, memory, None)?;
                        Ok((memory, ss2.map(right)))
                    }
                    Some(ss1) => Ok((memory, Some(left(ss1)))),
                }
            }
            Position::Right(ss2) => {
                let (memory, ss2) = pg(si, memory, Some(*ss2))?;
                Ok((memory, ss2.map(right)))
            }
            Position::One => unreachable!("a sum has two sides"),
        }),
    )
}

fn seq_cc((pfa, pfb): TypeC, (pga, pgb): TypeC) -> TypeC {
    (
        Box::new(move |si, memory| {
            let (memory, ss1) = pfa(si, memory)?;
            Ok((memory, left(ss1)))
        }),
        Box::new(move |si, memory, ss12| match ss12 {
            Position::Left(ss1) => {
                let (memory, ss1) = pfb(si, memory, *ss1)?;
                match ss1 {
                    None => {
                        let (memory, ss2) = pga(si, memory)?;
                        Ok((memory, Some(right(ss2))))
                    }
                    Some(ss1) => Ok((memory, Some(left(ss1)))),
                }
            }
            Position::Right(ss2) => {
                let (memory, ss2) = pgb(si, memory, *ss2)?;
                Ok((memory, ss2.map(right)))
            }
            Position::One => unreachable!("a sum has two sides"),
        }),
    )
}

// If-then-else.

fn negate_condition(condition: Condition) -> Condition {
    Box::new(move |si, memory| Ok(!condition(si, memory)?))
}

fn if_aa(condition: Condition, pf: TypeA, pg: TypeA) -> TypeA {
    Box::new(move |si, memory| match condition(si, &memory)? {
        true => pf(si, memory),
        false => pg(si, memory),
    })
}

fn if_ab(condition: Condition, pf: TypeA, pg: TypeB) -> TypeB {
    Box::new(move |si, memory, ss| match ss {
        None => match condition(si, &memory)? {
            true => Ok((pf(si, memory)?, None)),
            false => pg(si, memory, None),
        },
        Some(ss) => pg(si, memory, Some(ss)),
    })
}

fn if_ac(condition: Condition, pf: TypeA, (pga, pgb): TypeC) -> TypeB {
    Box::new(move |si, memory, ss| match ss {
        None => match condition(si, &memory)? {
            true => Ok((pf(si, memory)?, None)),
            false => {
                let (memory, ss) = pga(si, memory)?;
                Ok((memory, Some(ss)))
            }
        },
        Some(ss) => pgb(si, memory, ss),
    })
}

fn if_bb(condition: Condition, pf: TypeB, pg: TypeB) -> TypeB {
    Box::new(move |si, memory, ss12| {
        let first = |memory, ss1| -> Result<(Memory, Option<Position>), Fault> {
            let (memory, ss1) = pf(si, memory, ss1)?;
            Ok((memory, ss1.map(left)))
        };
        let second = |memory, ss2| -> Result<(Memory, Option<Position>), Fault> {
            let (memory, ss2) = pg(si, memory, ss2)?;
            Ok((memory, ss2.map(right)))
        };
        match ss12 {
            None => match condition(si, &memory)? {
                true => first(memory, None),
                false => second(memory, None),
            },
            Some(Position::Left(ss1)) => first(memory, Some(*ss1)),
            Some(Position::Right(ss2)) => second(memory, Some(*ss2)),
            Some(Position::One) => unreachable!("a sum has two sides"),
        }
    })
}

fn if_bc(condition: Condition, pf: TypeB, (pga, pgb): TypeC) -> TypeB {
    Box::new(move |si, memory, ss12| {
        let first = |memory, ss1| -> Result<(Memory, Option<Position>), Fault> {
            let (memory, ss1) = pf(si, memory, ss1)?;
            Ok((memory, ss1.map(left)))
        };
        match ss12 {
            None => match condition(si, &memory)? {
                true => first(memory, None),
                false => {
                    let (memory, ss2) = pga(si, memory)?;
                    Ok((memory, Some(right(ss2))))
                }
            },
            Some(Position::Left(ss1)) => first(memory, Some(*ss1)),
            Some(Position::Right(ss2)) => {
                let (memory, ss2) = pgb(si, memory, *ss2)?;
                Ok((memory, ss2.map(right)))
            }
            Some(Position::One) => unreachable!("a sum has two sides"),
        }
    })
}

fn if_cc(condition: Condition, (pfa, pfb): TypeC, (pga, pgb): TypeC) -> TypeC {
    (
        Box::new(move |si, memory| match condition(si, &memory)? {
            true => {
                let (memory, ss1) = pfa(si, memory)?;
                Ok((memory, left(ss1)))
            }
            false => {
                let (memory, ss2) = pga(si, memory)?;
                Ok((memory, right(ss2)))
            }
        }),
        Box::new(move |si, memory, ss12| match ss12 {
            Position::Left(ss1) => {
                let (memory, ss1) = pfb(si, memory, *ss1)?;
                Ok((memory, ss1.map(left)))
            }
            Position::Right(ss2) => {
                let (memory, ss2) = pgb(si, memory, *ss2)?;
                Ok((memory, ss2.map(right)))
            }
            Position::One => unreachable!("a sum has two sides"),
        }),
    )
}

// While, and the whole process.

fn while_c(condition: Condition, (pfa, pfb): TypeC) -> TypeB {
    Box::new(move |si, memory, ss| {
        let tested = |memory: Memory| -> Result<(Memory, Option<Position>), Fault> {
            match condition(si, &memory)? {
                true => {
                    let (memory, ss) = pfa(si, memory)?;
                    Ok((memory, Some(ss)))
                }
                false => Ok((memory, None)),
            }
        };
        match ss {
            None => tested(memory),
            Some(ss) => {
                let (memory, ss) = pfb(si, memory, ss)?;
                match ss {
                    None => tested(memory),
                    Some(ss) => Ok((memory, Some(ss))),
                }
            }
        }
    })
}

fn close_c(
    (pfa, pfb): &TypeC,
    si: Inputs,
    memory: Memory,
    ss: Option<Position>,
) -> Result<(Memory, Position), Fault> {
    match ss {
        None => pfa(si, memory),
        Some(ss) => {
            let (memory, ss) = pfb(si, memory, ss)?;
            match ss {
                None => pfa(si, memory),
                Some(ss) => Ok((memory, ss)),
            }
        }
    }
}

// From a design to these functions.

type Waits = Vec<(usize, Position)>;

/// The waits of a compound: a part without waits adds no side to the sum.
fn sum(first: Waits, second: Waits) -> Waits {
    if first.is_empty() || second.is_empty() {
        return [first, second].concat();
    }
    let first = first.into_iter().map(|(number, at)| (number, left(at)));
    let second = second.into_iter().map(|(number, at)| (number, right(at)));
    first.chain(second).collect()
}

fn sequence(first: Built, second: Built) -> Built {
    use Statement::*;
    Built {
        waits: sum(first.waits, second.waits),
        statement: match (first.statement, second.statement) {
            (A(pf), A(pg)) => A(seq_aa(pf, pg)),
            (A(pf), B(pg)) => B(seq_ab(pf, pg)),
            (A(pf), C(pg)) => C(seq_ac(pf, pg)),
            (B(pf), A(pg)) => B(seq_ba(pf, pg)),
            (B(pf), B(pg)) => B(seq_bb(pf, pg)),
            (B(pf), C(pg)) => C(seq_bc(pf, pg)),
            (C(pf), A(pg)) => C(seq_ca(pf, pg)),
            (C(pf), B(pg)) => C(seq_cb(pf, pg)),
            (C(pf), C(pg)) => C(seq_cc(pf, pg)),
        },
    }
}

fn if_then_else(condition: Condition, first: Built, second: Built) -> Built {
    use Statement::*;
    let not = negate_condition;
    match (first.statement, second.statement) {
        // BA, CA and CB are AB, AC and BC with the condition negated and the parts exchanged.
        (B(pf), A(pg)) => Built {
            statement: B(if_ab(not(condition), pg, pf)),
            waits: sum(second.waits, first.waits),
        },
        (C(pf), A(pg)) => Built {
            statement: B(if_ac(not(condition), pg, pf)),
            waits: sum(second.waits, first.waits),
        },
        (C(pf), B(pg)) => Built {
            statement: B(if_bc(not(condition), pg, pf)),
            waits: sum(second.waits, first.waits),
        },
        (pf, pg) => Built {
            waits: sum(first.waits, second.waits),
            statement: match (pf, pg) {
                (A(pf), A(pg)) => A(if_aa(condition, pf, pg)),
                (A(pf), B(pg)) => B(if_ab(condition, pf, pg)),
                (A(pf), C(pg)) => B(if_ac(condition, pf, pg)),
                (B(pf), B(pg)) => B(if_bb(condition, pf, pg)),
                (B(pf), C(pg)) => B(if_bc(condition, pf, pg)),
                (C(pf), C(pg)) => C(if_cc(condition, pf, pg)),
                _ => unreachable!("the other pairs are exchanged"),
            },
        },
    }
}

fn all(steps: &[Step]) -> Built {
    let built = |step: &Step| build(step);
    let mut parts: Vec<Built> = steps.iter().map(built).collect();
    let mut whole = parts.pop().expect("a list holds at least one");
    while let Some(part) = parts.pop() {
        whole = sequence(part, whole);
    }
    whole
}

fn build(step: &Step) -> Built {
    let number = step.number;
    let plain = |statement: TypeA| Built {
        statement: Statement::A(statement),
        waits: Vec::new(),
    };
    match step.action.clone() {
        Action::Output { index, value } => plain(signal_assignment(move |si, memory| {
            let mut outputs = memory.outputs.clone();
            outputs[index] = evaluate(&value, si, memory, number)?;
            Ok(outputs)
        })),
        Action::Variable { index, value } => plain(variable_assignment(move |si, memory| {
            let mut variables = memory.variables.clone();
            variables[index] = evaluate(&value, si, memory, number)?;
            Ok(variables)
        })),
        Action::Null => plain(null_statement()),
        Action::Wait => Built {
            statement: Statement::C(wait()),
            waits: vec![(number, Position::One)],
        },
        Action::If {
            condition,
            then,
            otherwise,
        } => {
            let otherwise = match otherwise {
                Some(steps) => all(&steps),
                None => plain(null_statement()),
            };
            if_then_else(tested(condition, number), all(&then), otherwise)
        }
        Action::While { condition, body } => {
            let body = all(&body);
            let Statement::C(statement) = body.statement else {
                panic!("an accepted while has a C body");
            };
            Built {
                statement: Statement::B(while_c(tested(condition, number), statement)),
                waits: body.waits,
            }
        }
    }
}

fn tested(term: Term, number: usize) -> Condition {
    Box::new(move |si, memory| Ok(evaluate(&term, si, memory, number)? != 0))
}

/// The value over the integers; outside 32 bits it is a fault, and so is a zero divisor.
fn evaluate(term: &Term, si: Inputs, memory: &Memory, number: usize) -> Result<i32, Fault> {
    let value = |term: &Term| evaluate(term, si, memory, number).map(i128::from);
    let exact: i128 = match term {
        Term::Integer(value) | Term::StdLogic(value) => i128::from(*value),
        Term::Input(index) => i128::from(si[*index]),
        Term::Variable(index) => i128::from(memory.variables[*index]),
        Term::Unary(Unary::Sign, operand) => -value(operand)?,
        Term::Unary(Unary::Not, operand) => i128::from(value(operand)? == 0),
        Term::Binary(operator, left, right) => {
            let (left, right) = (value(left)?, value(right)?);
            if matches!(operator, Binary::Divide | Binary::Mod | Binary::Rem) && right == 0 {
                return Err((18, number));
            }
            match operator {
                Binary::Plus => left + right,
                Binary::Minus => left - right,
                Binary::Times => left * right,
                Binary::Divide => (left - left % right) / right,
                Binary::Mod => modulus(left, right),
                Binary::Rem => left % right,
                Binary::Equal => i128::from(left == right),
                Binary::Unequal => i128::from(left != right),
                Binary::Less => i128::from(left < right),
                Binary::LessEqual => i128::from(left <= right),
                Binary::Greater => i128::from(left > right),
                Binary::GreaterEqual => i128::from(left >= right),
                Binary::And => left.min(right),
                Binary::Or => left.max(right),
                Binary::Xor => (left + right) % 2,
            }
        }
    };
    i32::try_from(exact).map_err(|_| (16, number))
}

/// IEEE 1076's sentence on `mod`, tried on the only two numbers nearer to 0 than the right operand
/// that differ from the left one by multiples of the right one.
fn modulus(left: i128, right: i128) -> i128 {
    let rest = left % right;
    let has_its_sign = |m: &i128| *m == 0 || (*m < 0) == (right < 0);
    let is_near = |m: &i128| m.abs() < right.abs();
    let mut found = [rest, rest + right].into_iter();
    found
        .find(|m| has_its_sign(m) && is_near(m))
        .expect("one of the two is the modulus")
}

/// Both runs over good rows, from the fresh state on.
fn check(design: &Design, calls: usize, random: &mut Random) {
    let built = all(&design.body);
    let Statement::C(body) = built.statement else {
        panic!("an accepted process has a C body");
    };
    let mut state = direct::fresh(design);
    let mut memory = Memory {
        outputs: state[OUTPUTS..VARIABLES].to_vec(),
        variables: state[VARIABLES..].to_vec(),
    };
    let mut place: Option<Position> = None;
    for _ in 0..calls {
        let inputs = rows::good(&design.inputs, random);
        let mut outputs = vec![0; design.outputs.len()];
        let way = direct::cycle(design, &mut state, &inputs, &mut outputs);
        match close_c(&body, &inputs, memory.clone(), place.clone()) {
            Err(fault) => {
                let refusal = way.expect_err("the equations have a fault");
                assert_eq!((refusal.number, refusal.place as usize), fault);
            }
            Ok((after, wait)) => {
                way.expect("the equations have no fault");
                memory = after;
                place = Some(wait);
                assert_eq!(outputs, memory.outputs[..outputs.len()]);
            }
        }
        assert_eq!(state[OUTPUTS..VARIABLES], memory.outputs);
        assert_eq!(state[VARIABLES..], memory.variables);
        let number = match &place {
            None => 512,
            Some(place) => {
                let found = built.waits.iter().find(|(_, wait)| wait == place);
                found.expect("every position is a wait's").0
            }
        };
        assert_eq!(state[0], number as i32);
    }
}

#[test]
fn direct_runs_are_those_of_the_published_equations() {
    let seed = seed();
    for round in 0..rounds(1500) {
        let mut random = Random::round(seed, round);
        let text = texts::accepted(&mut random);
        let design = verdict(&text).expect("the text is accepted");
        check(&design, 24, &mut random);
    }
}
