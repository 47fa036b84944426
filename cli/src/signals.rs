//! Names and types of the ports and variables of a text, and where its statements begin.
//!
//! An image of form 1 has no names, so whoever shows values by name reads them off the text. Nothing is
//! checked: of a text that the compiler accepts the answers are right, of another one they are
//! whatever its tokens look like.

use crate::tokens::tokens;
use rabtishu::Image;

/// The type of a signal or variable.
#[derive(Clone, Copy, Debug, PartialEq, Eq)]
pub enum Kind {
    /// `std_logic`, 0 or 1.
    Bit,
    /// `integer`, 32 bits.
    Integer,
}

/// A port or variable.
#[derive(Clone, Debug, PartialEq, Eq)]
pub struct Signal {
    /// In lower case, as the trace prints it.
    pub name: String,
    /// Its type.
    pub kind: Kind,
}

/// All that has a name, in declared order.
#[derive(Clone, Debug, PartialEq, Eq)]
pub struct Signals {
    /// The entity's name, in lower case.
    pub entity: String,
    /// The name in the first wait; none where only an image is there.
    pub clock: Option<String>,
    /// The data inputs; the clock is none of them.
    pub inputs: Vec<Signal>,
    /// The outputs.
    pub outputs: Vec<Signal>,
    /// The variables.
    pub variables: Vec<Signal>,
}

impl Kind {
    /// The type byte of a signature.
    pub fn of_byte(byte: u8) -> Kind {
        match byte {
            0 => Kind::Bit,
            _ => Kind::Integer,
        }
    }

    /// The name of the type in a text.
    pub fn word(self) -> &'static str {
        match self {
            Kind::Bit => "std_logic",
            Kind::Integer => "integer",
        }
    }

    /// A value as a text writes it.
    pub fn literal(self, value: i32) -> String {
        match self {
            Kind::Bit => format!("'{value}'"),
            Kind::Integer => value.to_string(),
        }
    }

    fn of_word(word: &str) -> Option<Kind> {
        [Kind::Bit, Kind::Integer]
            .into_iter()
            .find(|kind| kind.word() == word)
    }
}

impl Signals {
    /// The names of an accepted text.
    pub fn of_text(text: &[u8]) -> Signals {
        let words: Vec<String> = tokens(text).map(|token| token.folded()).collect();
        let clock = behind(&words, "until").first().cloned();
        let ports = until(behind(&words, "("), ")");
        let variables = until(behind(&words, "process"), "begin");
        let mut inputs = declared(ports, Some("in"));
        inputs.retain(|input| Some(&input.name) != clock.as_ref());
        Signals {
            entity: words.get(1).cloned().unwrap_or_default(),
            clock,
            inputs,
            outputs: declared(ports, Some("out")),
            variables: declared(variables, None),
        }
    }

    /// Names made up for an image alone: `in0`, `out0`, `var0` and so on.
    pub fn of_image(image: &Image) -> Signals {
        let signature = image.signature();
        let types = &signature[3..];
        let (inputs, slots) = types.split_at(image.inputs());
        let slots: Vec<u8> = slots.chunks(5).map(|slot| slot[0]).collect();
        let (outputs, variables) = slots.split_at(image.outputs());
        Signals {
            entity: "image".to_string(),
            clock: None,
            inputs: numbered("in", inputs),
            outputs: numbered("out", outputs),
            variables: numbered("var", variables),
        }
    }

    /// Every name but that of the entity.
    pub fn names(&self) -> impl Iterator<Item = &str> {
        let lists = [&self.inputs, &self.outputs, &self.variables];
        let signals = lists.into_iter().flatten();
        self.clock
            .as_deref()
            .into_iter()
            .chain(signals.map(|signal| signal.name.as_str()))
    }
}

/// The place of the first token of each statement in text order: that of line n of the table is
/// element n.
pub fn statements(text: &[u8]) -> Vec<usize> {
    let mut places = Vec::new();
    let mut begins = false;
    let mut declared = false;
    for token in tokens(text) {
        let (place, word) = (token.place, token.folded());
        if begins && !["end", "else", ";"].contains(&word.as_str()) {
            places.push(place);
        }
        declared |= word == "process";
        begins = match word.as_str() {
            "begin" => declared,
            "then" | "else" | "loop" | ";" => !places.is_empty(),
            _ => false,
        };
    }
    places
}

/// The words behind the first of this one.
fn behind<'a>(words: &'a [String], word: &str) -> &'a [String] {
    let place = words.iter().position(|other| other == word);
    place.map_or(&[], |place| &words[place + 1..])
}

/// The words before the first of this one.
fn until<'a>(words: &'a [String], word: &str) -> &'a [String] {
    let place = words.iter().position(|other| other == word);
    &words[..place.unwrap_or(words.len())]
}

/// The names of all groups with this mode; groups of variables have none.
fn declared(words: &[String], mode: Option<&str>) -> Vec<Signal> {
    let groups = words.split(|word| word == ";");
    groups.flat_map(|group| group_of(group, mode)).collect()
}

/// The names of a group, with its type; none if it has another mode.
fn group_of(group: &[String], mode: Option<&str>) -> Vec<Signal> {
    let about = behind(group, ":");
    let kind = match mode {
        None => about.first(),
        Some(mode) if about.first().is_some_and(|word| word == mode) => about.get(1),
        Some(_) => None,
    };
    let Some(kind) = kind.and_then(|word| Kind::of_word(word)) else {
        return Vec::new();
    };
    let names = until(group, ":").iter();
    names
        .filter(|word| *word != "," && *word != "variable")
        .map(|name| Signal {
            name: name.clone(),
            kind,
        })
        .collect()
}

fn numbered(prefix: &str, types: &[u8]) -> Vec<Signal> {
    let numbers = types.iter().enumerate();
    numbers
        .map(|(number, &byte)| Signal {
            name: format!("{prefix}{number}"),
            kind: Kind::of_byte(byte),
        })
        .collect()
}
