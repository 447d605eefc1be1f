//! The library's own functions, declared from `include/in656.h`. The header asks one thing of a
//! caller: each pointer is valid for its length, and no lent parts overlap. Slices see to that.

use crate::second::face::{Answer, Call, Face, Lengths};

extern "C" {
    fn in656_result_size() -> usize;
    fn in656_longest() -> usize;
    fn in656_record_length() -> usize;
    fn in656_gatherer_length() -> usize;
    fn in656_desk_length() -> usize;
    fn in656_master_length() -> usize;
    fn in656_version() -> u32;
    fn in656_same_edition(version: u32) -> u32;
    fn in656_read(line: u32, f: *const u8, fl: usize, r: *mut u8, rl: usize) -> Answer;
    fn in656_write(
        line: u32,
        r: *const u8,
        rl: usize,
        number: u32,
        o: *mut u8,
        ol: usize,
    ) -> Answer;
    fn in656_packet(line: u32, of: u32, first: u32, index: u32) -> Answer;
    fn in656_record(line: u32, of: u32, first: u32, r: *mut u8, rl: usize) -> Answer;
    fn in656_value(line: u32, r: *const u8, rl: usize, letter: u32) -> Answer;
    fn in656_put_value(line: u32, r: *mut u8, rl: usize, letter: u32, value: u32) -> Answer;
    fn in656_gatherer_start(s: *mut u8, sl: usize) -> Answer;
    fn in656_gatherer_byte(s: *mut u8, sl: usize, byte: u8) -> Answer;
    fn in656_gatherer_hit(s: *mut u8, sl: usize) -> Answer;
    fn in656_next(b: *const u8, bl: usize, from: usize) -> Answer;
    fn in656_desk_start(s: *mut u8, sl: usize, line: u32) -> Answer;
    fn in656_desk_tick(s: *mut u8, sl: usize, time: u32) -> Answer;
    fn in656_desk_queue(s: *mut u8, sl: usize, r: *mut u8, rl: usize) -> Answer;
    fn in656_desk_set(s: *mut u8, sl: usize, r: *const u8, rl: usize) -> Answer;
    fn in656_desk_key(s: *mut u8, sl: usize, key: u32) -> Answer;
    fn in656_desk_clear_queue(s: *mut u8, sl: usize) -> Answer;
    fn in656_desk_clear_set(s: *mut u8, sl: usize) -> Answer;
    fn in656_desk_due(s: *const u8, sl: usize, time: u32) -> Answer;
    fn in656_desk_look(s: *const u8, sl: usize, r: *mut u8, rl: usize) -> Answer;
    fn in656_desk_waiting(s: *const u8, sl: usize, index: u32, r: *mut u8, rl: usize) -> Answer;
    fn in656_desk_hear(
        s: *mut u8,
        sl: usize,
        time: u32,
        f: *const u8,
        fl: usize,
        o: *mut u8,
        ol: usize,
        r: *mut u8,
        rl: usize,
    ) -> Answer;
    fn in656_master_start(s: *mut u8, sl: usize, line: u32, time: u32) -> Answer;
    fn in656_master_offer(
        s: *mut u8,
        sl: usize,
        time: u32,
        r: *const u8,
        rl: usize,
        o: *mut u8,
        ol: usize,
    ) -> Answer;
    fn in656_master_tick(s: *mut u8, sl: usize, time: u32, o: *mut u8, ol: usize) -> Answer;
    fn in656_master_hear(
        s: *mut u8,
        sl: usize,
        time: u32,
        f: *const u8,
        fl: usize,
        o: *mut u8,
        ol: usize,
        r: *mut u8,
        rl: usize,
    ) -> Answer;
    fn in656_master_due(s: *const u8, sl: usize, time: u32) -> Answer;
    fn in656_master_look(s: *const u8, sl: usize, r: *mut u8, rl: usize) -> Answer;
    fn in656_log_read(b: *const u8, bl: usize, from: usize) -> Answer;
    fn in656_log_write(
        mark: u32,
        time: u32,
        b: *const u8,
        bl: usize,
        o: *mut u8,
        ol: usize,
    ) -> Answer;
    fn in656_refusal_words(refusal: u32, o: *mut u8, ol: usize) -> Answer;
    fn in656_desk_words(outcome: u32, detail: u32, o: *mut u8, ol: usize) -> Answer;
    fn in656_master_words(outcome: u32, detail: u32, o: *mut u8, ol: usize) -> Answer;
}

/// A pointer to bytes: null where there are none, as the header allows.
fn at(bytes: &[u8]) -> *const u8 {
    if bytes.is_empty() {
        return std::ptr::null();
    }
    bytes.as_ptr()
}

fn to(bytes: &mut [u8]) -> *mut u8 {
    if bytes.is_empty() {
        return std::ptr::null_mut();
    }
    bytes.as_mut_ptr()
}

/// The linked library.
pub struct Library;

impl Face for Library {
    fn lengths(&self) -> Lengths {
        // SAFETY: these take nothing.
        unsafe {
            [
                in656_result_size(),
                in656_longest(),
                in656_record_length(),
                in656_gatherer_length(),
                in656_desk_length(),
                in656_master_length(),
            ]
        }
    }

    #[inline(always)]
    fn version(&self) -> u32 {
        // SAFETY: it takes nothing.
        unsafe { in656_version() }
    }

    #[inline(always)]
    fn same_edition(&self, version: u32) -> u32 {
        // SAFETY: it takes a number.
        unsafe { in656_same_edition(version) }
    }

    #[inline(always)]
    fn call(&self, call: Call, state: &mut [u8], out: &mut [u8], record: &mut [u8]) -> Answer {
        let (s, sl) = (to(state), state.len());
        let (o, ol) = (to(out), out.len());
        let (r, rl) = (to(record), record.len());
        // SAFETY: each pointer is that of a slice, with its length, and the slices are lent apart.
        unsafe {
            match call {
                Call::Read(line, f) => in656_read(line, at(f), f.len(), r, rl),
                Call::Write(line, b, number) => in656_write(line, at(b), b.len(), number, o, ol),
                Call::Packet(line, of, first, index) => in656_packet(line, of, first, index),
                Call::Record(line, of, first) => in656_record(line, of, first, r, rl),
                Call::Value(line, b, letter) => in656_value(line, at(b), b.len(), letter),
                Call::PutValue(line, letter, value) => in656_put_value(line, r, rl, letter, value),
                Call::GathererStart => in656_gatherer_start(s, sl),
                Call::GathererByte(byte) => in656_gatherer_byte(s, sl, byte),
                Call::GathererHit => in656_gatherer_hit(s, sl),
                Call::Next(b, from) => in656_next(at(b), b.len(), from),
                Call::DeskStart(line) => in656_desk_start(s, sl, line),
                Call::DeskTick(time) => in656_desk_tick(s, sl, time),
                Call::DeskQueue => in656_desk_queue(s, sl, r, rl),
                Call::DeskSet(b) => in656_desk_set(s, sl, at(b), b.len()),
                Call::DeskKey(key) => in656_desk_key(s, sl, key),
                Call::DeskClearQueue => in656_desk_clear_queue(s, sl),
                Call::DeskClearSet => in656_desk_clear_set(s, sl),
                Call::DeskDue(time) => in656_desk_due(s, sl, time),
                Call::DeskLook => in656_desk_look(s, sl, r, rl),
                Call::DeskWaiting(index) => in656_desk_waiting(s, sl, index, r, rl),
                Call::DeskHear(time, f) => {
                    in656_desk_hear(s, sl, time, at(f), f.len(), o, ol, r, rl)
                }
                Call::MasterStart(line, time) => in656_master_start(s, sl, line, time),
                Call::MasterOffer(time, b) => {
                    in656_master_offer(s, sl, time, at(b), b.len(), o, ol)
                }
                Call::MasterTick(time) => in656_master_tick(s, sl, time, o, ol),
                Call::MasterHear(time, f) => {
                    in656_master_hear(s, sl, time, at(f), f.len(), o, ol, r, rl)
                }
                Call::MasterDue(time) => in656_master_due(s, sl, time),
                Call::MasterLook => in656_master_look(s, sl, r, rl),
                Call::LogRead(b, from) => in656_log_read(at(b), b.len(), from),
                Call::LogWrite(mark, time, b) => in656_log_write(mark, time, at(b), b.len(), o, ol),
                Call::RefusalWords(refusal) => in656_refusal_words(refusal, o, ol),
                Call::DeskWords(outcome, detail) => in656_desk_words(outcome, detail, o, ol),
                Call::MasterWords(outcome, detail) => in656_master_words(outcome, detail, o, ol),
            }
        }
    }
}
