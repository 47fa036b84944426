//! The stages 1 to 9: "Stages in table order, the lowest place first within a stage; 3 and 4 are a
//! single stage, with 3 first at one token."

use crate::answer::{refusal, Outcome};
use crate::declarations::Declarations;
use crate::design::{elaborate, Design};
use crate::{classes, clock, lexer, limits, names, parser, types, values};

/// The design of an accepted text, or its refusal.
pub fn verdict(text: &[u8]) -> Outcome<Design> {
    if text.len() > limits::TEXT {
        return Err(refusal(1, 0));
    }
    let tokens = lexer::tokens(text).map_err(|place| refusal(2, place))?;
    let tree = parser::parse(text, &tokens)?;
    let declarations = Declarations::of(&tree, text);
    stage(5, &names::offences(&tree, &declarations))?;
    stage(6, &types::offences(&tree, &declarations))?;
    stage(7, &values::offences(&tree))?;
    stage(8, &clock::offences(&tree, &declarations))?;
    stage(9, &classes::offences(&tree))?;
    Ok(elaborate(&tree, &declarations))
}

/// A stage refuses at the lowest of its offences.
fn stage(number: u32, offences: &[usize]) -> Outcome<()> {
    match offences.iter().min() {
        Some(place) => Err(refusal(number, *place)),
        None => Ok(()),
    }
}
