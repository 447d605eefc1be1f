//! How much stack each call of the library needs: below the caller's own part the stack is painted, and after the call
//! the lowest byte that is no longer as painted is looked for.

use super::linked::Linked;
use super::{compare, Size, PARTS};
use crate::second::face::{Answer, Call, Face, Lengths};
use crate::second::Second;
use std::collections::BTreeMap;
use std::sync::Mutex;

/// How many words of eight bytes are painted; no call comes near the lowest.
const WORDS: usize = 4_096;
/// What they are painted with.
const PAINT: u64 = 0xC3A5_5A3C_9669_F00F;

/// The bytes that each call needed at most, by its name.
pub type Needed = BTreeMap<&'static str, usize>;

/// The library with the stack that its calls needed.
struct Painted {
    needed: Mutex<Needed>,
}

/// Where the stack ends now; null on a machine whose register for it is not known here.
#[inline(always)]
fn stack_end() -> *mut u64 {
    #[allow(unused_mut)]
    let mut end: *mut u64 = std::ptr::null_mut();
    // SAFETY: it reads a register.
    unsafe {
        #[cfg(target_arch = "x86_64")]
        std::arch::asm!("mov {}, rsp", out(reg) end, options(nomem, nostack, preserves_flags));
        #[cfg(target_arch = "aarch64")]
        std::arch::asm!("mov {}, sp", out(reg) end, options(nomem, nostack, preserves_flags));
    }
    end
}

/// Paints what is below the end of the stack. It calls nothing, since what it calls would live there.
#[inline(always)]
fn paint(end: *mut u64) {
    for word in 1..=WORDS {
        // SAFETY: the thread's stack is larger than what is painted, and nothing lives below its end.
        unsafe { end.sub(word).write_volatile(PAINT) }
    }
}

/// How many bytes below the end of the stack a call has used.
#[inline(always)]
fn used(end: *mut u64) -> usize {
    // SAFETY: as in painting.
    let is_painted = |word: usize| unsafe { end.sub(word).read_volatile() == PAINT };
    let mut depth = WORDS;
    while depth > 0 && is_painted(depth) {
        depth -= 1;
    }
    8 * depth
}

impl Painted {
    fn note(&self, name: &'static str, bytes: usize) {
        assert!(
            bytes < 8 * WORDS / 2,
            "in656_{name} needs more than is painted"
        );
        let mut needed = self.needed.lock().unwrap_or_else(|held| held.into_inner());
        let most = needed.entry(name).or_default();
        *most = bytes.max(*most);
    }
}

impl Face for Painted {
    fn lengths(&self) -> Lengths {
        Linked.lengths()
    }

    #[inline(never)]
    fn version(&self) -> u32 {
        let end = stack_end();
        paint(end);
        let answer = Linked.version();
        self.note("version", used(end));
        answer
    }

    #[inline(never)]
    fn same_edition(&self, version: u32) -> u32 {
        let end = stack_end();
        paint(end);
        let answer = Linked.same_edition(version);
        self.note("same_edition", used(end));
        answer
    }

    #[inline(never)]
    fn call(&self, call: Call, state: &mut [u8], out: &mut [u8], record: &mut [u8]) -> Answer {
        let end = stack_end();
        paint(end);
        let answer = Linked.call(call, state, out, record);
        self.note(call.name(), used(end));
        answer
    }
}

/// The bytes of stack that each call needed at most in so many chunks of the comparison, each so many times smaller.
/// None are said where the machine's stack is not known.
pub fn most(chunks: u64, divided: usize) -> Needed {
    if stack_end().is_null() {
        return Needed::new();
    }
    let face = Painted {
        needed: Mutex::new(Needed::new()),
    };
    for (part, ..) in PARTS {
        compare(part, Size { chunks, divided }, &face, &Second);
    }
    face.needed
        .into_inner()
        .unwrap_or_else(|held| held.into_inner())
}
