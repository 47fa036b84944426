//! The reader against the grammar as data. The grammar is read by Earley's method, which keeps all
//! ways in which the tokens so far begin a sentence: where none is left, the token "cannot
//! continue".

use reference::generate::random::{rounds, seed, Random};
use reference::generate::{limits, mutants, texts};
use reference::lexer::{tokens, Kind, Token, RESERVED, SIGNS};
use reference::verdict::verdict;
use std::collections::HashSet;

/// Document 01's sentences on the grammar, with those of change request 2. `name` and `number` are tokens of any spelling; a word
/// with an own line is a part; every other word is the token itself.
const GRAMMAR: &str = "
text = entity name is port ( groups ) ; end name ; rest
rest = architecture name of name is begin process begin list end process ; end name ;
rest = architecture name of name is begin process vars begin list end process ; end name ;
groups = group
groups = groups ; group
group = names : mode kind
group = names : mode kind := value
mode = in
mode = out
names = name
names = names , name
kind = std_logic
kind = integer
value = number
value = - number
value = '0'
value = '1'
vars = var
vars = vars var
var = variable names : kind ;
var = variable names : kind := value ;
list = statement
list = list statement
statement = name <= e ;
statement = name := e ;
statement = null ;
statement = wait until name = '1' ;
statement = if e then list end if ;
statement = if e then list else list end if ;
statement = while e loop list end loop ;
e = relation
e = ands
e = ors
e = xors
ands = relation and relation
ands = ands and relation
ors = relation or relation
ors = ors or relation
xors = relation xor relation
xors = xors xor relation
relation = simple
relation = simple order simple
order = =
order = /=
order = <
order = <=
order = >
order = >=
simple = terms
simple = - terms
terms = term
terms = terms + term
terms = terms - term
term = factor
term = term * factor
term = term / factor
term = term mod factor
term = term rem factor
factor = primary
factor = not primary
primary = number
primary = '0'
primary = '1'
primary = name
primary = ( e )
";

#[derive(Clone, Copy, PartialEq, Eq)]
enum Symbol {
    Part(usize),
    Token(Kind),
}

struct Rule {
    part: usize,
    symbols: Vec<Symbol>,
}

/// The rules, with parts numbered from 0, the text.
fn rules() -> Vec<Rule> {
    let lines: Vec<(&str, &str)> = GRAMMAR
        .lines()
        .filter_map(|line| line.split_once(" = "))
        .collect();
    let mut parts: Vec<&str> = Vec::new();
    for (part, _) in &lines {
        if !parts.contains(part) {
            parts.push(part);
        }
    }
    let number = |word: &str| parts.iter().position(|part| *part == word);
    let symbol = |word: &str| match (word, number(word)) {
        ("name", _) => Symbol::Token(Kind::Name),
        ("number", _) => Symbol::Token(Kind::Number),
        (_, Some(part)) => Symbol::Part(part),
        _ => {
            let mut fixed = RESERVED.iter().chain(&SIGNS);
            let found = fixed.find(|(spelling, _)| *spelling == word);
            Symbol::Token(found.unwrap_or_else(|| panic!("{word} is no token")).1)
        }
    };
    let rule = |(part, symbols): &(&str, &str)| Rule {
        part: number(part).expect("every part is numbered"),
        symbols: symbols.split(' ').map(symbol).collect(),
    };
    lines.iter().map(rule).collect()
}

/// A rule, how many of its symbols are read, and where it began.
type Item = (usize, usize, usize);

/// All items that hold at one place, completed and predicted.
fn close(rules: &[Rule], sets: &[Vec<Item>], start: Vec<Item>) -> Vec<Item> {
    let here = sets.len();
    let mut items: Vec<Item> = Vec::new();
    let mut seen: HashSet<Item> = HashSet::new();
    let mut waiting = start;
    while let Some(item) = waiting.pop() {
        if !seen.insert(item) {
            continue;
        }
        items.push(item);
        let (rule, read, origin) = item;
        match rules[rule].symbols.get(read) {
            Some(Symbol::Part(part)) => {
                let begun = (0..rules.len()).filter(|next| rules[*next].part == *part);
                waiting.extend(begun.map(|next| (next, 0, here)));
            }
            Some(Symbol::Token(_)) => {}
            // No rule is empty, so what waits for this part stands in an earlier set.
            None => {
                let part = Symbol::Part(rules[rule].part);
                let holders = sets[origin]
                    .iter()
                    .filter(|(holder, done, _)| rules[*holder].symbols.get(*done) == Some(&part));
                waiting.extend(holders.map(|(holder, done, from)| (*holder, done + 1, *from)));
            }
        }
    }
    items
}

/// The index of the first token that cannot continue, the count of tokens if only the end cannot,
/// or none for a sentence.
fn stops(rules: &[Rule], tokens: &[Token]) -> Option<usize> {
    let mut sets: Vec<Vec<Item>> = Vec::new();
    let first = close(rules, &sets, vec![(0, 0, 0)]);
    sets.push(first);
    for (index, token) in tokens.iter().enumerate() {
        let symbol = Symbol::Token(token.kind);
        let over: Vec<Item> = sets[index]
            .iter()
            .filter(|(rule, read, _)| rules[*rule].symbols.get(*read) == Some(&symbol))
            .map(|(rule, read, origin)| (*rule, read + 1, *origin))
            .collect();
        if over.is_empty() {
            return Some(index);
        }
        let next = close(rules, &sets, over);
        sets.push(next);
    }
    let whole = (0, rules[0].symbols.len(), 0);
    let last = sets.last().expect("there is a first set");
    (!last.contains(&whole)).then_some(tokens.len())
}

/// The verdict must agree with the grammar: 3 exactly where it stops, 4 only before, and all later
/// stages only for sentences.
fn check(rules: &[Rule], text: &[u8]) {
    let Ok(list) = tokens(text) else { return };
    if text.len() > 16_384 {
        return;
    }
    let place = |index: usize| list.get(index).map_or(text.len(), |token| token.start);
    let stop = stops(rules, &list).map(place);
    let shown = String::from_utf8_lossy(text);
    match verdict(text).err().map(|r| (r.number, r.place as usize)) {
        Some((3, place)) => assert_eq!(stop, Some(place), "{shown}"),
        Some((4, place)) => assert!(stop.is_none_or(|stop| stop > place), "{shown}"),
        _ => assert_eq!(stop, None, "{shown}"),
    }
}

#[test]
fn accepted_texts_are_sentences() {
    let seed = seed();
    let rules = rules();
    for round in 0..rounds(300) {
        let mut random = Random::round(seed, round);
        check(&rules, &texts::accepted(&mut random));
    }
}

#[test]
fn mutants_stop_where_the_grammar_does() {
    let seed = seed();
    let rules = rules();
    for round in 0..rounds(4000) {
        let mut random = Random::round(seed, round);
        check(&rules, &mutants::mutant(&mut random));
        check(&rules, &mutants::noise(&mut random));
    }
}

#[test]
fn limits_are_judged_before_the_grammar_stops() {
    let rules = rules();
    for case in limits::limit_texts() {
        check(&rules, &case.text);
    }
}
