//! A program without std, which has its own panic handler: were std in the crate that it uses, there would be two.
//! It ends with status 0 if the column that it draws is the right one.

#![no_std]
#![no_main]

use core::panic::PanicInfo;

use sagivelume::{Column, Refusal, Summary, GAP};

// The C library, by which a program starts.
#[link(name = "c")]
extern "C" {}

#[panic_handler]
fn panicked(_: &PanicInfo) -> ! {
    loop {}
}

/// What core names for a panic that goes up through its callers. None does here, but some linkers ask for it.
#[no_mangle]
pub extern "C" fn rust_eh_personality() {}

fn drawn() -> Result<Option<Summary>, Refusal> {
    let (mut coefficients, mut codes) = ([0; 4], [0; 2]);
    sagivelume::make(3, &[41_200, GAP, 40_900], &mut coefficients, &mut codes)?;
    Ok(sagivelume::finished(3, &coefficients, &codes, Column { a: 0, b: 3, w: 1, k: 0 })?.answer)
}

/// The program.
#[no_mangle]
pub extern "C" fn main() -> i32 {
    match drawn() {
        Ok(Some(Summary { low: 40_900, high: 41_200, .. })) => 0,
        _ => 1,
    }
}
