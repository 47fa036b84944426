//! Batches of rows: most with the lengths that are their due, some with another length, or with a
//! count whose dues are these lengths only where products are cut to 32 or 64 bits.

use super::random::Random;
use super::rows;
use crate::batches::{fresh, Batch};
use crate::compare::Shape;
use crate::loader::open;
use crate::state::State;

/// A state for an image that opens, some of them wrong.
pub fn state(image: &[u8], random: &mut Random) -> State {
    Shape::of(&open(image).expect("the image opens")).state(random)
}

/// A batch for this image, from its fresh state or another, good or damaged.
pub fn any(image: &[u8], random: &mut Random) -> Batch {
    let opened = open(image);
    let shape = opened.as_ref().map_or_else(|_| Shape::unknown(), Shape::of);
    let state = match random.chance(40) && opened.is_ok() {
        true => fresh(image),
        false => shape.state(random),
    };
    let count = random.below(9);
    let mut inputs = Vec::new();
    for _ in 0..count {
        let mut row = rows::good(&shape.inputs, random);
        if random.chance(10) && !row.is_empty() {
            let at = random.below(row.len());
            row[at] = *random.pick(&[2, -1, i32::MIN, i32::MAX]);
        }
        inputs.extend(row);
    }
    let mut batch = Batch {
        image: image.to_vec(),
        state,
        count,
        inputs,
        outputs: count * shape.outputs.len(),
        answers: 3 * count,
    };
    if random.chance(25) {
        spoil(
            &mut batch,
            [shape.inputs.len(), shape.outputs.len()],
            random,
        );
    }
    batch
}

/// One length or the count off by one, or a count that is far too large.
fn spoil(batch: &mut Batch, widths: [usize; 2], random: &mut Random) {
    match random.below(12) {
        0 => batch.inputs.push(random.integer()),
        1 => drop(batch.inputs.pop()),
        2 => batch.outputs += 1,
        3 => batch.outputs = batch.outputs.saturating_sub(1),
        4 => batch.answers += 1,
        5 => batch.answers = batch.answers.saturating_sub(1),
        6 => batch.count += 1,
        7 => batch.count = batch.count.wrapping_sub(1),
        8 => batch.count |= 1 << random.between(32, 63),
        9 => batch.count = usize::MAX - random.below(3),
        _ => {
            let bits = *random.pick(&[32, 64]);
            let answers = *random.pick(&[1, 2, 4, 5]);
            if let Some((count, [inputs, outputs])) = wrapped(widths, bits, answers) {
                batch.count = count;
                batch.inputs.resize(inputs, 1);
                batch.outputs = outputs;
                batch.answers = answers;
            }
        }
    }
}

/// The count whose three products, cut to so many bits, are this number of answers, which is no
/// multiple of 3, and the lengths given back; none if these are long.
pub fn wrapped(widths: [usize; 2], bits: u32, answers: usize) -> Option<(usize, [usize; 2])> {
    let modulus = 1u128 << bits;
    // 3 has an inverse by every power of two: a third of 1 is a whole number there.
    let third = match modulus % 3 {
        1 => (2 * modulus + 1) / 3,
        _ => (modulus + 1) / 3,
    };
    let count = answers as u128 * third % modulus;
    let lengths = widths.map(|width| (count * width as u128 % modulus) as usize);
    let short = lengths.iter().all(|length| *length < 1000);
    short.then_some((count as usize, lengths))
}
