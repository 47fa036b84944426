//! A program of somebody who has installed the library: prints the trace of tally.

use rabtishu::{Image, Refusal};

const TALLY: &[u8] = include_bytes!("../../../../examples/tally/process.vhd");
const ROWS: [i32; 6] = [7, 7, 1, -5, i32::MIN, 20];

fn main() -> Result<(), Refusal> {
    let bytes = rabtishu::compile(TALLY)?;
    let image = Image::open(&bytes)?;
    let (mut state, mut total) = (image.fresh(), [0]);
    println!("cycle wait lines total");
    for (cycle, d) in ROWS.into_iter().enumerate() {
        match image.cycle(&mut state, &[d], &mut total) {
            Ok(lines) => println!("{cycle} {} {lines} {}", state.place(), total[0]),
            Err(refusal) => println!("{cycle} refused {}", refusal.number),
        }
    }
    Ok(())
}
