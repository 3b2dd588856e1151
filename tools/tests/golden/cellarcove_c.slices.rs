//! A slice is a pointer and a length in a call for C.

use cellarcove::multinomial;

#[repr(C)]
pub struct Answer {
    pub status: u32,
}

#[unsafe(no_mangle)]
pub extern "C" fn cellarcove_multinomial(counts: *const u64, counts_len: usize, n: u64) -> Answer {
    let counts = if counts_len == 0 {
        &[]
    } else {
        // SAFETY: the caller promises that the pointer leads to so many items, which do not change.
        unsafe { core::slice::from_raw_parts(counts, counts_len) }
    };
    answer(multinomial(counts))
}

#[unsafe(no_mangle)]
pub extern "C" fn cellarcove_next(choice: *mut u64, choice_len: usize) -> bool {
    let choice = if choice_len == 0 {
        &mut []
    } else {
        // SAFETY: the caller promises that the pointer leads to so many items, which nothing else reads or writes.
        unsafe { core::slice::from_raw_parts_mut(choice, choice_len) }
    };
    cellarcove::applied::ranking::next_choice(choice)
}

fn inner(counts: &[u64]) -> u64 {
    cellarcove::modular::residue(counts[0])
}
