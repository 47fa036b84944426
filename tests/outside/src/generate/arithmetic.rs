//! Texts and rows for `*`, `/`, `mod` and `rem` (change request 2): each operator alone, and
//! expressions that hold little else, as trees that can be written with all their parentheses or with
//! those alone that the reading needs.

use super::random::Random;

/// The four operators, in the order of their codes.
pub const OPERATORS: [&str; 4] = ["*", "/", "mod", "rem"];

/// The ends of the range, their roots, and the numbers near 0.
pub const EDGES: [i32; 17] = [
    i32::MIN,
    i32::MIN + 1,
    -65_536,
    -46_341,
    -3,
    -2,
    -1,
    0,
    1,
    2,
    3,
    46_340,
    46_341,
    65_535,
    65_536,
    i32::MAX - 1,
    i32::MAX,
];

/// Every edge beside every other.
pub fn pairs() -> Vec<Vec<i32>> {
    let beside = |x: i32| EDGES.iter().map(move |y| vec![x, *y]);
    EDGES.into_iter().flat_map(beside).collect()
}

/// A text with the inputs x, y and z, the outputs p and q, and these statements before its wait.
fn text(statements: &str) -> Vec<u8> {
    let text = format!(
        "entity e is port ( clk : in std_logic; x, y, z : in integer; p : out integer := 7; q : out \
         integer := -3 ); end e; architecture a of e is begin process begin {statements} wait until \
         clk = '1'; end process; end a;"
    );
    text.into_bytes()
}

/// The operator on x and y, in statement 1; z is not read. Where the operator is refused, what
/// statement 0 did has to be undone.
pub fn operator_text(operator: &str) -> Vec<u8> {
    text(&format!("p <= x; q <= x {operator} y;"))
}

/// An expression: a name or number, a sign, or an operator between two.
pub enum Tree {
    Leaf(String),
    Sign(Box<Tree>),
    Between(&'static str, Box<Tree>, Box<Tree>),
}

impl Tree {
    /// A random one of at most this depth.
    pub fn random(depth: usize, random: &mut Random) -> Tree {
        if depth == 0 || random.chance(10) {
            let leaf = match random.below(10) {
                0 => "0".to_string(),
                1..=2 => EDGES[random.between(8, 16)].to_string(),
                _ => random.pick(&["x", "y", "z"]).to_string(),
            };
            return Tree::Leaf(leaf);
        }
        let part = |random: &mut Random| Box::new(Tree::random(depth - 1, random));
        let operators: &[&'static str] = match random.below(10) {
            0..=1 => return Tree::Sign(part(random)),
            2..=3 => &["+", "-"],
            _ => &OPERATORS,
        };
        let operator = *random.pick(operators);
        Tree::Between(operator, part(random), part(random))
    }

    /// With parentheses around every part that holds an operator.
    pub fn full(&self) -> String {
        let around = |part: &Tree| match part {
            Tree::Leaf(leaf) => leaf.clone(),
            _ => format!("({})", part.full()),
        };
        match self {
            Tree::Leaf(leaf) => leaf.clone(),
            Tree::Sign(part) => format!("-{}", around(part)),
            Tree::Between(operator, left, right) => {
                format!("{} {operator} {}", around(left), around(right))
            }
        }
    }

    /// With the parentheses alone that the reading needs: "binding tighter than `+`; a sign covers
    /// the whole first term", and of equals the left one first.
    pub fn least(&self) -> String {
        match self {
            Tree::Leaf(leaf) => leaf.clone(),
            Tree::Sign(part) => format!("-{}", part.within(TERM)),
            Tree::Between(operator @ ("+" | "-"), left, right) => {
                format!("{} {operator} {}", left.within(SIMPLE), right.within(TERM))
            }
            Tree::Between(operator, left, right) => {
                format!("{} {operator} {}", left.within(TERM), right.within(FACTOR))
            }
        }
    }

    /// As a part that has to be of this level, or a higher one.
    fn within(&self, level: u8) -> String {
        match self.level() >= level {
            true => self.least(),
            false => format!("({})", self.least()),
        }
    }

    fn level(&self) -> u8 {
        match self {
            Tree::Leaf(_) => FACTOR,
            Tree::Sign(_) | Tree::Between("+" | "-", ..) => SIMPLE,
            Tree::Between(..) => TERM,
        }
    }
}

/// The levels of the grammar.
const SIMPLE: u8 = 0;
const TERM: u8 = 1;
const FACTOR: u8 = 2;

/// A text that assigns the first expression and compares it with the second in a condition.
pub fn expression_text(first: &str, second: &str) -> Vec<u8> {
    text(&format!(
        "p <= {first}; if {first} < {second} then q <= 1; else q <= {second}; end if;"
    ))
}

/// A row for the inputs: edges, often 0, mostly small numbers.
pub fn row(random: &mut Random) -> Vec<i32> {
    let value = |_| match random.below(8) {
        0 => 0,
        1..=2 => *random.pick(&EDGES),
        _ => random.below(200) as i32 - 100,
    };
    (0..3).map(value).collect()
}
