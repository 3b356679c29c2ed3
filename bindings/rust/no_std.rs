//! A user of the crate with a panic handler of its own: it compiles where the crate is without std.
//!
//!     cargo build && rustc --edition 2024 --crate-type rlib --emit metadata -C panic=abort \
//!         --extern gimli_proved=target/debug/libgimli_proved.rlib -o target/no_std.rmeta no_std.rs
#![no_std]

use gimli_proved::Sections;

#[panic_handler]
fn panic(_: &core::panic::PanicInfo<'_>) -> ! {
    loop {}
}

/// The number of units, the one that is refused too.
pub fn units(sections: &Sections<'_>) -> usize {
    sections.units().count()
}
