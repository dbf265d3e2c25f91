//! The calls with their answers as 64-bit numbers, as include/metzurgo.h has them.

mod linked {
    extern "C" {
        pub fn metzurgo_version() -> u64;
        pub fn metzurgo_wire(
            setting: u32,
            file: *const u8,
            file_len: usize,
            words: *mut u64,
            words_len: usize,
        ) -> u64;
        pub fn metzurgo_judge(setting: u32, file: *const u8, file_len: usize) -> u64;
        pub fn metzurgo_needed(setting: u32, file: *const u8, file_len: usize) -> u64;
        pub fn metzurgo_word_place(setting: u32, file: *const u8, file_len: usize, k: u64) -> u64;
        pub fn metzurgo_tables(
            setting: u32,
            file: *const u8,
            file_len: usize,
            words: *mut u64,
            words_len: usize,
            bits: *mut u8,
            bits_len: usize,
        ) -> u64;
        pub fn metzurgo_trace(
            setting: u32,
            file: *const u8,
            file_len: usize,
            words: *const u64,
            words_len: usize,
            bits: *const u8,
            bits_len: usize,
            start: u8,
            arrival: u8,
            address: u64,
            passed: *mut u8,
            passed_len: usize,
        ) -> u64;
        pub fn metzurgo_step(
            setting: u32,
            file: *const u8,
            file_len: usize,
            words: *const u64,
            words_len: usize,
            bits: *const u8,
            bits_len: usize,
            expander: u8,
            arrival: u8,
            address: u64,
        ) -> u64;
        pub fn metzurgo_compact(
            setting: u32,
            file: *const u8,
            file_len: usize,
            form: *mut u64,
            form_len: usize,
        ) -> u64;
        pub fn metzurgo_compact_tables(
            setting: u32,
            form: *const u64,
            form_len: usize,
            words: *mut u64,
            words_len: usize,
            bits: *mut u8,
            bits_len: usize,
        ) -> u64;
        pub fn metzurgo_compact_trace(
            setting: u32,
            form: *const u64,
            form_len: usize,
            words: *const u64,
            words_len: usize,
            bits: *const u8,
            bits_len: usize,
            start: u8,
            arrival: u8,
            address: u64,
            passed: *mut u8,
            passed_len: usize,
        ) -> u64;
        pub fn metzurgo_compact_trace_many(
            setting: u32,
            form: *const u64,
            form_len: usize,
            words: *const u64,
            words_len: usize,
            bits: *const u8,
            bits_len: usize,
            requests: *const u64,
            requests_len: usize,
            answers: *mut u64,
            answers_len: usize,
        ) -> u64;
        pub fn metzurgo_card_of_file(
            setting: u32,
            file: *const u8,
            file_len: usize,
            card: *mut u8,
            card_len: usize,
        ) -> u64;
        pub fn metzurgo_file_of_card(
            setting: u32,
            card: *const u8,
            card_len: usize,
            file: *mut u8,
            file_len: usize,
        ) -> u64;
        pub fn metzurgo_event(
            setting: u32,
            file: *mut u8,
            file_len: usize,
            words: *mut u64,
            words_len: usize,
            bits: *mut u8,
            bits_len: usize,
            expander: u8,
            phy: u8,
            address: u64,
        ) -> u64;
        pub fn metzurgo_join(
            setting: u32,
            first: *const u8,
            first_len: usize,
            first_expander: u8,
            first_phy: u8,
            second: *const u8,
            second_len: usize,
            second_expander: u8,
            second_phy: u8,
            out: *mut u8,
            out_len: usize,
        ) -> u64;
        pub fn metzurgo_make(
            first: u64,
            second: u64,
            words: *const u64,
            words_len: usize,
            out: *mut u8,
            out_len: usize,
        ) -> u64;
        pub fn metzurgo_write_route(
            buf: *mut u8,
            buf_len: usize,
            length: u8,
            phy: u8,
            index: u16,
            address: u64,
            disabled: u8,
        ) -> u64;
        pub fn metzurgo_read_route(frame: *const u8, len: usize) -> u64;
        pub fn metzurgo_read_route_address(frame: *const u8, len: usize) -> u64;
        pub fn metzurgo_read_general(frame: *const u8, len: usize) -> u64;
        pub fn metzurgo_read_general_sas2(frame: *const u8, len: usize) -> u64;
        pub fn metzurgo_read_discover(frame: *const u8, len: usize) -> u64;
        pub fn metzurgo_discover_own(frame: *const u8, len: usize) -> u64;
        pub fn metzurgo_discover_attached(frame: *const u8, len: usize) -> u64;
        pub fn metzurgo_shelf_size() -> u64;
        pub fn metzurgo_shelf_fresh(
            shelf: *mut u64,
            phys: u8,
            indexes: u16,
            kinds: *const u8,
            len: usize,
        ) -> u64;
        pub fn metzurgo_shelf_obey(shelf: *mut u64, frame: *const u8, len: usize) -> u64;
        pub fn metzurgo_shelf_entry(shelf: *const u64, phy: u8, index: u16) -> u64;
        pub fn metzurgo_shelf_disabled(shelf: *const u64, phy: u8, index: u16) -> u64;
    }
}

pub fn version() -> u64 {
    unsafe { linked::metzurgo_version() }
}

pub fn wire(setting: u32, file: &[u8], words: &mut [u64]) -> u64 {
    unsafe {
        linked::metzurgo_wire(
            setting,
            file.as_ptr(),
            file.len(),
            words.as_mut_ptr(),
            words.len(),
        )
    }
}

pub fn judge(setting: u32, file: &[u8]) -> u64 {
    unsafe { linked::metzurgo_judge(setting, file.as_ptr(), file.len()) }
}

pub fn needed(setting: u32, file: &[u8]) -> u64 {
    unsafe { linked::metzurgo_needed(setting, file.as_ptr(), file.len()) }
}

pub fn word_place(setting: u32, file: &[u8], k: u64) -> u64 {
    unsafe { linked::metzurgo_word_place(setting, file.as_ptr(), file.len(), k) }
}

pub fn tables(setting: u32, file: &[u8], words: &mut [u64], bits: &mut [u8]) -> u64 {
    unsafe {
        linked::metzurgo_tables(
            setting,
            file.as_ptr(),
            file.len(),
            words.as_mut_ptr(),
            words.len(),
            bits.as_mut_ptr(),
            bits.len(),
        )
    }
}

#[allow(clippy::too_many_arguments)]
pub fn trace(
    setting: u32,
    file: &[u8],
    words: &[u64],
    bits: &[u8],
    start: u8,
    arrival: u8,
    address: u64,
    passed: &mut [u8],
) -> u64 {
    unsafe {
        linked::metzurgo_trace(
            setting,
            file.as_ptr(),
            file.len(),
            words.as_ptr(),
            words.len(),
            bits.as_ptr(),
            bits.len(),
            start,
            arrival,
            address,
            passed.as_mut_ptr(),
            passed.len(),
        )
    }
}

pub fn step(
    setting: u32,
    file: &[u8],
    words: &[u64],
    bits: &[u8],
    expander: u8,
    arrival: u8,
    address: u64,
) -> u64 {
    unsafe {
        linked::metzurgo_step(
            setting,
            file.as_ptr(),
            file.len(),
            words.as_ptr(),
            words.len(),
            bits.as_ptr(),
            bits.len(),
            expander,
            arrival,
            address,
        )
    }
}

pub fn compact(setting: u32, file: &[u8], form: &mut [u64]) -> u64 {
    let (start, len) = (form.as_mut_ptr(), form.len());
    unsafe { linked::metzurgo_compact(setting, file.as_ptr(), file.len(), start, len) }
}

pub fn compact_tables(setting: u32, form: &[u64], words: &mut [u64], bits: &mut [u8]) -> u64 {
    unsafe {
        linked::metzurgo_compact_tables(
            setting,
            form.as_ptr(),
            form.len(),
            words.as_mut_ptr(),
            words.len(),
            bits.as_mut_ptr(),
            bits.len(),
        )
    }
}

#[allow(clippy::too_many_arguments)]
pub fn compact_trace(
    setting: u32,
    form: &[u64],
    words: &[u64],
    bits: &[u8],
    start: u8,
    arrival: u8,
    address: u64,
    passed: &mut [u8],
) -> u64 {
    unsafe {
        linked::metzurgo_compact_trace(
            setting,
            form.as_ptr(),
            form.len(),
            words.as_ptr(),
            words.len(),
            bits.as_ptr(),
            bits.len(),
            start,
            arrival,
            address,
            passed.as_mut_ptr(),
            passed.len(),
        )
    }
}

pub fn compact_trace_many(
    setting: u32,
    form: &[u64],
    words: &[u64],
    bits: &[u8],
    requests: &[u64],
    answers: &mut [u64],
) -> u64 {
    unsafe {
        linked::metzurgo_compact_trace_many(
            setting,
            form.as_ptr(),
            form.len(),
            words.as_ptr(),
            words.len(),
            bits.as_ptr(),
            bits.len(),
            requests.as_ptr(),
            requests.len(),
            answers.as_mut_ptr(),
            answers.len(),
        )
    }
}

pub fn card_of_file(setting: u32, file: &[u8], card: &mut [u8]) -> u64 {
    let (start, len) = (card.as_mut_ptr(), card.len());
    unsafe { linked::metzurgo_card_of_file(setting, file.as_ptr(), file.len(), start, len) }
}

pub fn file_of_card(setting: u32, card: &[u8], file: &mut [u8]) -> u64 {
    let (start, len) = (file.as_mut_ptr(), file.len());
    unsafe { linked::metzurgo_file_of_card(setting, card.as_ptr(), card.len(), start, len) }
}

/// The place is an expander and a phy of it; address 0 is a pull.
pub fn event(
    setting: u32,
    file: &mut [u8],
    words: &mut [u64],
    bits: &mut [u8],
    (expander, phy): (u8, u8),
    address: u64,
) -> u64 {
    unsafe {
        linked::metzurgo_event(
            setting,
            file.as_mut_ptr(),
            file.len(),
            words.as_mut_ptr(),
            words.len(),
            bits.as_mut_ptr(),
            bits.len(),
            expander,
            phy,
            address,
        )
    }
}

/// Each file with the expander and phy of its end of the cable.
pub fn join(
    setting: u32,
    (first, near): (&[u8], (u8, u8)),
    (second, far): (&[u8], (u8, u8)),
    out: &mut [u8],
) -> u64 {
    unsafe {
        linked::metzurgo_join(
            setting,
            first.as_ptr(),
            first.len(),
            near.0,
            near.1,
            second.as_ptr(),
            second.len(),
            far.0,
            far.1,
            out.as_mut_ptr(),
            out.len(),
        )
    }
}

pub fn make(first: u64, second: u64, words: &[u64], out: &mut [u8]) -> u64 {
    let (start, len) = (out.as_mut_ptr(), out.len());
    unsafe { linked::metzurgo_make(first, second, words.as_ptr(), words.len(), start, len) }
}

pub fn write_route(
    buf: &mut [u8],
    length: u8,
    phy: u8,
    index: u16,
    address: u64,
    disabled: u8,
) -> u64 {
    let (start, len) = (buf.as_mut_ptr(), buf.len());
    unsafe { linked::metzurgo_write_route(start, len, length, phy, index, address, disabled) }
}

pub fn read_route(frame: &[u8]) -> u64 {
    unsafe { linked::metzurgo_read_route(frame.as_ptr(), frame.len()) }
}

pub fn read_route_address(frame: &[u8]) -> u64 {
    unsafe { linked::metzurgo_read_route_address(frame.as_ptr(), frame.len()) }
}

pub fn read_general(frame: &[u8]) -> u64 {
    unsafe { linked::metzurgo_read_general(frame.as_ptr(), frame.len()) }
}

pub fn read_general_sas2(frame: &[u8]) -> u64 {
    unsafe { linked::metzurgo_read_general_sas2(frame.as_ptr(), frame.len()) }
}

pub fn read_discover(frame: &[u8]) -> u64 {
    unsafe { linked::metzurgo_read_discover(frame.as_ptr(), frame.len()) }
}

pub fn discover_own(frame: &[u8]) -> u64 {
    unsafe { linked::metzurgo_discover_own(frame.as_ptr(), frame.len()) }
}

pub fn discover_attached(frame: &[u8]) -> u64 {
    unsafe { linked::metzurgo_discover_attached(frame.as_ptr(), frame.len()) }
}

/// The words that a shelf takes: its bytes over eight. Any contents are a shelf.
pub const SHELF_WORDS: usize = 9240 / 8;

pub fn shelf_size() -> u64 {
    unsafe { linked::metzurgo_shelf_size() }
}

pub fn shelf_fresh(shelf: &mut [u64; SHELF_WORDS], phys: u8, indexes: u16, kinds: &[u8]) -> u64 {
    let (start, len) = (kinds.as_ptr(), kinds.len());
    unsafe { linked::metzurgo_shelf_fresh(shelf.as_mut_ptr(), phys, indexes, start, len) }
}

pub fn shelf_obey(shelf: &mut [u64; SHELF_WORDS], frame: &[u8]) -> u64 {
    unsafe { linked::metzurgo_shelf_obey(shelf.as_mut_ptr(), frame.as_ptr(), frame.len()) }
}

pub fn shelf_entry(shelf: &[u64; SHELF_WORDS], phy: u8, index: u16) -> u64 {
    unsafe { linked::metzurgo_shelf_entry(shelf.as_ptr(), phy, index) }
}

pub fn shelf_disabled(shelf: &[u64; SHELF_WORDS], phy: u8, index: u16) -> u64 {
    unsafe { linked::metzurgo_shelf_disabled(shelf.as_ptr(), phy, index) }
}
