//! Tally compiled into an array and run, without the standard library and without a heap. Ends with
//! 0 if its total is right.

#![no_std]
#![no_main]

use rabtishu::{compile_into, Image, Refusal};

// The C library starts and ends the program; the archive copies memory by it.
#[link(name = "c")]
extern "C" {
    fn abort() -> !;
}

const TALLY: &[u8] = include_bytes!("../../../../../examples/tally/process.vhd");

fn total() -> Result<[i32; 1], Refusal> {
    let mut bytes = [0; 256];
    let length = compile_into(TALLY, &mut bytes)?;
    let image = Image::open(&bytes[..length])?;
    let (mut state, mut total) = (image.fresh(), [0]);
    for d in [7, 7, 1] {
        image.cycle(&mut state, &[d], &mut total)?;
    }
    Ok(total)
}

#[no_mangle]
pub extern "C" fn main() -> i32 {
    i32::from(total() != Ok([14]))
}

#[panic_handler]
fn panicked(_: &core::panic::PanicInfo) -> ! {
    // SAFETY: it has no condition.
    unsafe { abort() }
}

/// Rust's own core, which was built for programs that unwind, names it; nobody calls it.
#[no_mangle]
pub extern "C" fn rust_eh_personality() {}
