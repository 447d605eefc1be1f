//! What is due of each end, by the second version and, where it is linked, by the library: a tick before it does nothing, the
//! tick at it does something, and where nothing is due no tick does anything. A program that sleeps until then misses nothing.

use host::comparing::linked::library;
use host::comparing::{compare, Size};
use host::line::faced::BothEnds;
use host::making::random::Random;
use host::making::states::{desk, master};
use host::making::times::CLOCKS;
use host::second::face::{Answer, Call, Face};
use host::second::framing::framed;
use host::second::numbers::{DUE_AFTER, DUE_NEVER, MASTER_NOTHING};
use host::second::Second;

/// The second version, and the library where it is linked.
fn faces() -> Vec<&'static dyn Face> {
    let second: &dyn Face = &Second;
    library().into_iter().chain([second]).collect()
}

/// The law on made states, the second version beside itself.
#[test]
fn ticks_around_what_is_due() {
    let size = Size {
        chunks: 4,
        divided: 1,
    };
    compare("states looked at", size, &Second, &Second);
}

/// Every tick from now until something is due does nothing.
#[test]
fn no_tick_before_does_anything() {
    for face in faces() {
        let mut random = Random::seeded(27);
        for _ in 0..20 {
            let now = CLOCKS[random.below(CLOCKS.len())];
            let mut ends = BothEnds::new(face);
            ends.desk.copy_from_slice(&desk(&mut random, now));
            ends.master.copy_from_slice(&master(&mut random, now));
            let (states, dues) = ((ends.desk, ends.master), (due_of(&mut ends, now)));
            let desk_due = match dues.0.outcome {
                DUE_NEVER => 40_000,
                _ => dues.0.detail,
            };
            for after in 0..desk_due {
                let tick = ends.on_desk(Call::DeskTick(now.wrapping_add(after)));
                assert_eq!((tick.lost, ends.desk), (0, states.0), "{after}");
            }
            for after in 0..dues.1.detail {
                let tick = ends.on_master(Call::MasterTick(now.wrapping_add(after)));
                let told = (tick.outcome, tick.written, ends.master);
                assert_eq!(told, (MASTER_NOTHING, 0, states.1), "{after}");
            }
        }
    }
}

/// What is due of both.
fn due_of(ends: &mut BothEnds, now: u32) -> (Answer, Answer) {
    let desk = ends.on_desk(Call::DeskDue(now));
    let master = ends.on_master(Call::MasterDue(now));
    assert_eq!((desk.refusal, master.refusal), (0, 0));
    assert_eq!(
        master.outcome, DUE_AFTER,
        "a master always has something due"
    );
    (desk, master)
}

/// Two masters and two desks hear the same: one of each is ticked every millisecond, the other only when something is due. They do
/// the same at the same times.
#[test]
fn sleeping_misses_nothing() {
    for face in faces() {
        for (line, start) in [(1, 0), (2, u32::MAX - 40_000), (3, u32::MAX - 3)] {
            let (mut awake, mut asleep) = (BothEnds::new(face), BothEnds::new(face));
            for ends in [&mut awake, &mut asleep] {
                ends.on_desk(Call::DeskStart(line));
                ends.on_master(Call::MasterStart(line, start));
                let poll = framed(b't', b'0', b"Bt");
                ends.on_desk(Call::DeskHear(start, &poll));
            }
            let (mut done, mut slept) = (Vec::new(), Vec::new());
            for after in 0..120_000u32 {
                let now = start.wrapping_add(after);
                if awake.on_desk(Call::DeskTick(now)).lost == 1 {
                    done.push((after, 0, Vec::new()));
                }
                let tick = awake.on_master(Call::MasterTick(now));
                if tick.outcome != MASTER_NOTHING {
                    done.push((after, tick.outcome, awake.sent(tick).to_vec()));
                }
            }
            let mut after = 0u32;
            loop {
                let (desk, master) = due_of(&mut asleep, start.wrapping_add(after));
                let wait = match desk.outcome {
                    DUE_NEVER => master.detail,
                    _ => master.detail.min(desk.detail),
                };
                after += wait;
                if after >= 120_000 {
                    break;
                }
                let now = start.wrapping_add(after);
                let mut did = 0;
                if asleep.on_desk(Call::DeskTick(now)).lost == 1 {
                    slept.push((after, 0, Vec::new()));
                    did += 1;
                }
                let tick = asleep.on_master(Call::MasterTick(now));
                if tick.outcome != MASTER_NOTHING {
                    slept.push((after, tick.outcome, asleep.sent(tick).to_vec()));
                    did += 1;
                }
                assert!(did > 0, "woken for nothing after {after} on line {line}");
            }
            assert_eq!(done, slept, "line {line}");
            assert!(done.len() > 15, "line {line}");
        }
    }
}
