//! Random texts that document 01 accepts.

use super::expressions::{number, Expressions, Give};
use super::random::Random;
use super::spelling::{name, split, write, Tokens};
use crate::limits::{DEPTH, INPUTS, OUTPUTS, TEXT, VARIABLES};
use crate::tree::Type;

/// An accepted text.
pub fn accepted(random: &mut Random) -> Vec<u8> {
    loop {
        let tokens = tokens(random);
        let text = write(&tokens, random);
        if text.len() <= TEXT {
            return text;
        }
    }
}

/// The tokens of an accepted text, unless it is too long.
pub fn tokens(random: &mut Random) -> Tokens {
    let mut writer = Writer::new(random);
    let statements = match writer.random.below(20) {
        0 => 400,
        1..=4 => 60,
        _ => 12,
    };
    writer.left = writer.random.between(1, statements) as isize;
    writer.waits = *writer.random.pick(&[60, 60, 60, 2]);
    writer.nested = *writer.random.pick(&[45, 45, 20, 10]);
    writer.text()
}

/// What a list of statements must be.
#[derive(Clone, Copy, PartialEq, Eq)]
enum Want {
    /// Class A.
    Never,
    /// Any class.
    Any,
    /// Class C.
    Always,
}

struct Writer<'a> {
    random: &'a mut Random,
    used: Vec<String>,
    clock: String,
    integers: Vec<String>,
    std_logics: Vec<String>,
    outputs: Vec<(String, Type)>,
    variables: Vec<(String, Type)>,
    /// How many statements there may still be; below 0 only what must be there is written.
    left: isize,
    /// How often what may hold a wait does, in percent: seldom in texts with long ways.
    waits: usize,
    /// How often a statement holds others, in percent.
    nested: usize,
    tokens: Tokens,
}

impl Writer<'_> {
    fn new(random: &mut Random) -> Writer<'_> {
        Writer {
            random,
            used: Vec::new(),
            clock: String::new(),
            integers: Vec::new(),
            std_logics: Vec::new(),
            outputs: Vec::new(),
            variables: Vec::new(),
            left: 0,
            waits: 60,
            nested: 45,
            tokens: Vec::new(),
        }
    }

    fn put(&mut self, line: &str) {
        self.tokens.extend(split(line));
    }

    fn text(mut self) -> Tokens {
        // Entity and architecture may have the names of ports: another set of names.
        let entity = name(self.random, &mut Vec::new());
        let architecture = name(self.random, &mut Vec::new());
        self.put(&format!("entity {entity} is port ("));
        self.ports();
        self.put(&format!(") ; end {entity} ;"));
        self.put(&format!("architecture {architecture} of {entity} is"));
        self.put("begin process");
        self.variable_groups();
        self.put("begin");
        self.list(Want::Always, 1);
        self.put(&format!("end process ; end {architecture} ;"));
        self.tokens
    }

    fn count(&mut self, limit: usize) -> usize {
        match self.random.below(12) {
            0 => limit,
            1 => self.random.between(0, limit),
            _ => self.random.between(0, 3),
        }
    }

    /// Groups of inputs and outputs in any order, the clock among them.
    fn ports(&mut self) {
        let mut inputs = self.count(INPUTS - 1);
        let mut outputs = self.count(OUTPUTS);
        let mut clock = true;
        let mut first = true;
        while clock || inputs > 0 || outputs > 0 {
            if !first {
                self.put(";");
            }
            first = false;
            if outputs > 0 && self.random.chance(50) {
                outputs -= self.output_group(outputs);
            } else if clock && (inputs == 0 || self.random.chance(40)) {
                clock = false;
                inputs -= self.clock_group(inputs);
            } else if inputs > 0 {
                inputs -= self.input_group(inputs);
            } else {
                outputs -= self.output_group(outputs);
            }
        }
    }

    /// Names with commas.
    fn names(&mut self, most: usize) -> Vec<String> {
        let count = self.random.between(1, most.min(4));
        let count = if self.random.chance(5) { most } else { count };
        let random = &mut *self.random;
        let used = &mut self.used;
        (0..count).map(|_| name(random, used)).collect()
    }

    /// Long ways are seldom performed with many integers: some sum leaves the range.
    fn kind(&mut self) -> Type {
        let integers = if self.waits < 10 { 15 } else { 50 };
        match self.random.chance(integers) {
            true => Type::Integer,
            false => Type::StdLogic,
        }
    }

    fn output_group(&mut self, most: usize) -> usize {
        let names = self.names(most);
        let kind = self.kind();
        self.put(&format!("{} : out {}", names.join(" , "), spelled(kind)));
        self.initial(kind);
        let count = names.len();
        self.outputs.extend(names.into_iter().map(|n| (n, kind)));
        count
    }

    fn input_group(&mut self, most: usize) -> usize {
        let names = self.names(most);
        let kind = self.kind();
        self.put(&format!("{} : in {}", names.join(" , "), spelled(kind)));
        self.ignored();
        let count = names.len();
        self.readable(names, kind);
        count
    }

    /// A group that holds the clock and perhaps other std_logic inputs.
    fn clock_group(&mut self, most: usize) -> usize {
        let others = if most > 0 && self.random.chance(30) {
            1
        } else {
            0
        };
        let mut names = self.names(others + 1);
        names.truncate(others + 1);
        let at = self.random.below(names.len());
        self.put(&format!("{} : in std_logic", names.join(" , ")));
        self.ignored();
        self.clock = names.remove(at);
        let count = names.len();
        self.readable(names, Type::StdLogic);
        count
    }

    fn readable(&mut self, names: Vec<String>, kind: Type) {
        match kind {
            Type::Integer => self.integers.extend(names),
            Type::StdLogic => self.std_logics.extend(names),
        }
    }

    /// "Initial values of inputs are ignored, their type included."
    fn ignored(&mut self) {
        if self.random.chance(15) {
            let kind = self.kind();
            self.initial(kind);
        }
    }

    fn initial(&mut self, kind: Type) {
        let value = match kind {
            Type::StdLogic => self.random.pick(&["'0'", "'1'"]).to_string(),
            Type::Integer => number(self.random),
        };
        let sign = if kind == Type::Integer && self.random.chance(20) {
            "-"
        } else {
            ""
        };
        self.put(&format!(":= {sign} {value}"));
    }

    fn variable_groups(&mut self) {
        let mut left = self.count(VARIABLES);
        while left > 0 {
            let names = self.names(left);
            let kind = self.kind();
            left -= names.len();
            let list = names.join(" , ");
            self.put(&format!("variable {list} : {}", spelled(kind)));
            self.initial(kind);
            self.put(";");
            let pairs = names.iter().map(|name| (name.clone(), kind));
            self.variables.extend(pairs);
            self.readable(names, kind);
        }
    }

    /// A list of statements at this depth.
    fn list(&mut self, want: Want, depth: usize) {
        let most = if depth == 1 { 24 } else { 4 };
        let count = match self.left {
            left if left > 0 => self.random.between(1, most),
            _ => 1,
        };
        let mut owed = want == Want::Always;
        for index in 0..count {
            let last = index + 1 == count || self.left <= 1;
            let pays = owed && (last || self.random.below(count - index) == 0);
            owed = owed && !pays;
            self.statement(
                match want {
                    Want::Never => Want::Never,
                    _ if pays => Want::Always,
                    _ => Want::Any,
                },
                depth,
            );
            if last {
                break;
            }
        }
        // At the top, what is left is used up.
        while depth == 1 && self.left > 0 {
            self.statement(Want::Any, depth);
        }
    }

    fn statement(&mut self, want: Want, depth: usize) {
        self.left -= 1;
        let nested = depth < DEPTH && self.left > 0 && self.random.chance(self.nested);
        match want {
            Want::Never if nested => self.branch(Want::Never, true, depth),
            Want::Always if nested => self.branch(Want::Always, false, depth),
            Want::Any if nested && !self.random.chance(self.waits) => {
                self.branch(Want::Never, true, depth)
            }
            Want::Any if nested && self.random.chance(40) => self.branch(Want::Any, true, depth),
            Want::Any if nested => self.repeat(depth),
            Want::Always => self.wait(),
            Want::Any if self.random.chance(self.waits / 4) => self.wait(),
            _ => self.plain(),
        }
    }

    fn wait(&mut self) {
        let clock = self.clock.clone();
        self.put(&format!("wait until {clock} = '1' ;"));
    }

    /// An assignment or null.
    fn plain(&mut self) {
        let outputs = self.outputs.len();
        let targets = outputs + self.variables.len();
        if targets == 0 || self.random.chance(8) {
            return self.put("null ;");
        }
        let index = self.random.below(targets);
        let ((target, kind), mark) = match index.checked_sub(outputs) {
            None => (self.outputs[index].clone(), "<="),
            Some(index) => (self.variables[index].clone(), ":="),
        };
        self.put(&format!("{target} {mark}"));
        self.expression(match kind {
            Type::Integer => Give::Integer,
            Type::StdLogic => Give::StdLogic,
        });
        self.put(";");
    }

    fn expression(&mut self, give: Give) {
        let expressions = Expressions {
            integers: &self.integers,
            std_logics: &self.std_logics,
        };
        let size = match self.random.below(30) {
            0 => 18,
            1..=5 => 3,
            _ => 1,
        };
        let tokens = expressions.expression(give, size, self.random);
        self.tokens.extend(tokens);
    }

    fn branch(&mut self, want: Want, else_optional: bool, depth: usize) {
        self.put("if");
        self.expression(Give::Boolean);
        self.put("then");
        self.list(want, depth + 1);
        if !else_optional || self.random.chance(50) {
            self.put("else");
            self.list(want, depth + 1);
        }
        self.put("end if ;");
    }

    fn repeat(&mut self, depth: usize) {
        self.put("while");
        self.expression(Give::Boolean);
        self.put("loop");
        self.list(Want::Always, depth + 1);
        self.put("end loop ;");
    }
}

fn spelled(kind: Type) -> &'static str {
    match kind {
        Type::StdLogic => "std_logic",
        Type::Integer => "integer",
    }
}
