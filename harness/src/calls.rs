//! The calls of include/metzurgo.h, so that the archive, the reference and the
//! fast version can stand in for each other.

use crate::events::Event;
use crate::reference::Place;
use crate::shelves::Words;

/// A file, and one of its phys.
pub type Part<'a> = (&'a [u8], Place);

pub trait Calls: Sync {
    fn name(&self) -> &'static str;
    fn wire(&self, setting: u32, file: &[u8], words: &mut [u64]) -> u64;
    fn judge(&self, setting: u32, file: &[u8]) -> u64;
    fn needed(&self, setting: u32, file: &[u8]) -> u64;
    fn word_place(&self, setting: u32, file: &[u8], k: u64) -> u64;
    fn tables(&self, setting: u32, file: &[u8], words: &mut [u64], bits: &mut [u8]) -> u64;
    #[allow(clippy::too_many_arguments)]
    fn trace(
        &self,
        setting: u32,
        file: &[u8],
        words: &[u64],
        bits: &[u8],
        start: u8,
        arrival: u8,
        address: u64,
        passed: &mut [u8],
    ) -> u64;
    #[allow(clippy::too_many_arguments)]
    fn step(
        &self,
        setting: u32,
        file: &[u8],
        words: &[u64],
        bits: &[u8],
        expander: u8,
        arrival: u8,
        address: u64,
    ) -> u64;
    fn compact(&self, setting: u32, file: &[u8], form: &mut [u64]) -> u64;
    fn compact_tables(&self, setting: u32, form: &[u64], words: &mut [u64], bits: &mut [u8])
        -> u64;
    #[allow(clippy::too_many_arguments)]
    fn compact_trace(
        &self,
        setting: u32,
        form: &[u64],
        words: &[u64],
        bits: &[u8],
        start: u8,
        arrival: u8,
        address: u64,
        passed: &mut [u8],
    ) -> u64;
    fn compact_trace_many(
        &self,
        setting: u32,
        form: &[u64],
        words: &[u64],
        bits: &[u8],
        requests: &[u64],
        answers: &mut [u64],
    ) -> u64;
    fn card_of_file(&self, setting: u32, file: &[u8], card: &mut [u8]) -> u64;
    fn file_of_card(&self, setting: u32, card: &[u8], file: &mut [u8]) -> u64;
    fn event(
        &self,
        setting: u32,
        file: &mut [u8],
        words: &mut [u64],
        bits: &mut [u8],
        event: Event,
    ) -> u64;
    fn join(&self, setting: u32, first: Part, second: Part, out: &mut [u8]) -> u64;
    fn make(&self, first: u64, second: u64, words: &[u64], out: &mut [u8]) -> u64;
    fn write_route(
        &self,
        buf: &mut [u8],
        length: u8,
        phy: u8,
        index: u16,
        address: u64,
        disabled: u8,
    ) -> u64;
    fn read_route(&self, frame: &[u8]) -> u64;
    fn read_route_address(&self, frame: &[u8]) -> u64;
    fn read_general(&self, frame: &[u8]) -> u64;
    fn read_general_sas2(&self, frame: &[u8]) -> u64;
    fn read_discover(&self, frame: &[u8]) -> u64;
    fn discover_own(&self, frame: &[u8]) -> u64;
    fn discover_attached(&self, frame: &[u8]) -> u64;
    fn shelf_fresh(&self, shelf: &mut Words, phys: u8, indexes: u16, kinds: &[u8]) -> u64;
    fn shelf_obey(&self, shelf: &mut Words, frame: &[u8]) -> u64;
    fn shelf_entry(&self, shelf: &Words, phy: u8, index: u16) -> u64;
    fn shelf_disabled(&self, shelf: &Words, phy: u8, index: u16) -> u64;
}

/// The archive, through the Rust binding.
pub struct Archive;

impl Calls for Archive {
    fn name(&self) -> &'static str {
        "archive"
    }

    fn wire(&self, setting: u32, file: &[u8], words: &mut [u64]) -> u64 {
        metzurgo::raw::wire(setting, file, words)
    }

    fn judge(&self, setting: u32, file: &[u8]) -> u64 {
        metzurgo::raw::judge(setting, file)
    }

    fn needed(&self, setting: u32, file: &[u8]) -> u64 {
        metzurgo::raw::needed(setting, file)
    }

    fn word_place(&self, setting: u32, file: &[u8], k: u64) -> u64 {
        metzurgo::raw::word_place(setting, file, k)
    }

    fn tables(&self, setting: u32, file: &[u8], words: &mut [u64], bits: &mut [u8]) -> u64 {
        metzurgo::raw::tables(setting, file, words, bits)
    }

    fn trace(
        &self,
        setting: u32,
        file: &[u8],
        words: &[u64],
        bits: &[u8],
        start: u8,
        arrival: u8,
        address: u64,
        passed: &mut [u8],
    ) -> u64 {
        metzurgo::raw::trace(setting, file, words, bits, start, arrival, address, passed)
    }

    fn step(
        &self,
        setting: u32,
        file: &[u8],
        words: &[u64],
        bits: &[u8],
        expander: u8,
        arrival: u8,
        address: u64,
    ) -> u64 {
        metzurgo::raw::step(setting, file, words, bits, expander, arrival, address)
    }

    fn compact(&self, setting: u32, file: &[u8], form: &mut [u64]) -> u64 {
        metzurgo::raw::compact(setting, file, form)
    }

    fn compact_tables(
        &self,
        setting: u32,
        form: &[u64],
        words: &mut [u64],
        bits: &mut [u8],
    ) -> u64 {
        metzurgo::raw::compact_tables(setting, form, words, bits)
    }

    fn compact_trace(
        &self,
        setting: u32,
        form: &[u64],
        words: &[u64],
        bits: &[u8],
        start: u8,
        arrival: u8,
        address: u64,
        passed: &mut [u8],
    ) -> u64 {
        metzurgo::raw::compact_trace(setting, form, words, bits, start, arrival, address, passed)
    }

    fn compact_trace_many(
        &self,
        setting: u32,
        form: &[u64],
        words: &[u64],
        bits: &[u8],
        requests: &[u64],
        answers: &mut [u64],
    ) -> u64 {
        metzurgo::raw::compact_trace_many(setting, form, words, bits, requests, answers)
    }

    fn card_of_file(&self, setting: u32, file: &[u8], card: &mut [u8]) -> u64 {
        metzurgo::raw::card_of_file(setting, file, card)
    }

    fn file_of_card(&self, setting: u32, card: &[u8], file: &mut [u8]) -> u64 {
        metzurgo::raw::file_of_card(setting, card, file)
    }

    fn event(
        &self,
        setting: u32,
        file: &mut [u8],
        words: &mut [u64],
        bits: &mut [u8],
        event: Event,
    ) -> u64 {
        metzurgo::raw::event(setting, file, words, bits, event.place, event.address)
    }

    fn join(&self, setting: u32, first: Part, second: Part, out: &mut [u8]) -> u64 {
        metzurgo::raw::join(setting, first, second, out)
    }

    fn make(&self, first: u64, second: u64, words: &[u64], out: &mut [u8]) -> u64 {
        metzurgo::raw::make(first, second, words, out)
    }

    fn write_route(
        &self,
        buf: &mut [u8],
        length: u8,
        phy: u8,
        index: u16,
        address: u64,
        disabled: u8,
    ) -> u64 {
        metzurgo::raw::write_route(buf, length, phy, index, address, disabled)
    }

    fn read_route(&self, frame: &[u8]) -> u64 {
        metzurgo::raw::read_route(frame)
    }

    fn read_route_address(&self, frame: &[u8]) -> u64 {
        metzurgo::raw::read_route_address(frame)
    }

    fn read_general(&self, frame: &[u8]) -> u64 {
        metzurgo::raw::read_general(frame)
    }

    fn read_general_sas2(&self, frame: &[u8]) -> u64 {
        metzurgo::raw::read_general_sas2(frame)
    }

    fn read_discover(&self, frame: &[u8]) -> u64 {
        metzurgo::raw::read_discover(frame)
    }

    fn discover_own(&self, frame: &[u8]) -> u64 {
        metzurgo::raw::discover_own(frame)
    }

    fn discover_attached(&self, frame: &[u8]) -> u64 {
        metzurgo::raw::discover_attached(frame)
    }

    fn shelf_fresh(&self, shelf: &mut Words, phys: u8, indexes: u16, kinds: &[u8]) -> u64 {
        metzurgo::raw::shelf_fresh(shelf, phys, indexes, kinds)
    }

    fn shelf_obey(&self, shelf: &mut Words, frame: &[u8]) -> u64 {
        metzurgo::raw::shelf_obey(shelf, frame)
    }

    fn shelf_entry(&self, shelf: &Words, phy: u8, index: u16) -> u64 {
        metzurgo::raw::shelf_entry(shelf, phy, index)
    }

    fn shelf_disabled(&self, shelf: &Words, phy: u8, index: u16) -> u64 {
        metzurgo::raw::shelf_disabled(shelf, phy, index)
    }
}
