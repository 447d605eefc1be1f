//! When and with what each line is polled, from 001 6.9, 7.3, 8.6 and 8.8: rules K4, M1, M7 and E11 of the
//! second version, and of the library where it is linked.

use host::comparing::linked::library;
use host::line::ends::Ends;
use host::line::faced::BothEnds;
use host::making::random::Random;
use host::making::telegrams::{any_form, of_form};
use host::second::blocks::{master_block, master_in, record_block, MASTER};
use host::second::desk::ROOM;
use host::second::face::{Call, Face};
use host::second::framing::framed;
use host::second::master::{Master, Told, Why};
use host::second::reading::{forms_on, read, SET};
use host::second::records::{by_master, Record};
use host::second::Second;

/// Where the flag stands in the master's bytes.
const OPERATION_AT: usize = 12;

/// T0 as the sections give it, and the poll's type and field.
const POLLS: [(u8, u32, u8, &[u8]); 3] = [
    (1, 20_000, b'r', b"BB"),
    (2, 5_000, b'r', b"B5"),
    (3, 10_000, b't', b"Bt"),
];

/// The second version, and the library where it is linked.
fn faces() -> Vec<&'static dyn Face> {
    let second: &dyn Face = &Second;
    library().into_iter().chain([second]).collect()
}

/// A master of line 3 that waits on a record, sent at 0, with the flag on or off.
fn waiting(operation: bool, record: Record) -> Master {
    let (mut master, _) = Master::start(3, 0);
    assert_eq!(master.offer(0, ROOM, record).0, Told::Sent(1));
    master.operation = operation;
    master
}

/// Checks that a free master polls at a limit from a start on, and not before.
fn polls_at(master: &Master, start: u32, limit: u32, bytes: &[u8]) {
    let at = |elapsed: u32| master.clone().tick(start.wrapping_add(elapsed), ROOM);
    for before in [0, 1, limit / 2, limit - 1] {
        assert_eq!(at(before), (Told::Nothing, Vec::new()), "{before}");
    }
    for after in [limit, limit + 1, 20_000, 1 << 31, u32::MAX] {
        assert_eq!(at(after), (Told::Polled(1), bytes.to_vec()), "{after}");
    }
}

#[test]
fn each_line_has_its_time_and_its_poll() {
    for (line, limit, type_byte, field) in POLLS {
        for start in [0, 1, 1_000_000, 4_294_967_000, u32::MAX] {
            let (master, told) = Master::start(line, start);
            assert_eq!((told, master.operation), (Told::Nothing, false));
            polls_at(&master, start, limit, &framed(type_byte, b'0', field));
        }
    }
    let (mut master, _) = Master::start(3, 7);
    master.operation = true;
    polls_at(&master, 7, 20_000, &framed(b't', b'0', b"Bt"));
}

/// 001 7.3: the radio answers the poll of line 2 with 5, and not with A.
#[test]
fn five_answers_the_poll_of_line_2() {
    let (mut master, _) = Master::start(2, 0);
    master.tick(5_000, ROOM);
    let heard = |frame: &[u8]| master.clone().hear(5_030, ROOM, frame).0;
    for (stop, value) in [(b"U+", b'+'), (b"U-", b'-')] {
        let told = Told::Answered(Record::with(b'5', value), 1);
        assert_eq!(heard(&framed(b'5', b'0', stop)), told);
    }
    for value in SET.bytes() {
        let told = Told::OtherKind(Ok(Record::with(b'A', value)), 1);
        assert_eq!(heard(&framed(b'A', b'0', &[b'A', value])), told);
    }
}

/// 001 8.6: after each A to t, T0 is 20,000 where it carries X, else 10,000; it runs from the sending.
#[test]
fn the_key_sets_t0_on_line_3() {
    let mut random = Random::seeded(1);
    let (mut master, _) = Master::start(3, 0);
    let (mut sent, mut limit) = (0, 10_000);
    for turn in 0..300u32 {
        assert_eq!(master.tick(sent + limit - 1, ROOM).0, Told::Nothing);
        sent += limit;
        assert_eq!(master.tick(sent, ROOM).0, Told::Polled(1));
        let (key, late) = (random.one_of(b"AXY"), random.below(2_000) as u32);
        let number = b'0' + (turn % 2) as u8;
        let told = master.hear(sent + late, ROOM, &framed(b'A', number, &[b'A', key]));
        assert_eq!(told.0, Told::Answered(Record::with(b'A', key), 1));
        limit = if key == b'X' { 20_000 } else { 10_000 };
        assert_eq!((master.operation, master.t0), (key == b'X', sent));
    }
}

/// Every record that the master of line 3 sends, and every frame that may come: only an A with A, X or Y,
/// to t, heard in time, moves the flag, and nothing moves T0 but a sending.
#[test]
fn only_an_a_that_answers_t_moves_the_flag() {
    let mut random = Random::seeded(2);
    let forms = (1..=3).flat_map(forms_on);
    let mut heard: Vec<Vec<u8>> = forms.map(|form| of_form(&mut random, form, b'0')).collect();
    heard.extend((0..=255).map(|value| framed(b'A', b'0', &[b'A', value])));
    heard.extend((0..=255).map(|value| framed(b'N', b'0', &[b'N', value])));
    heard.extend([framed(b'A', b'1', b"AX"), framed(b'A', b'2', b"AX")]);
    heard.extend([framed(b'A', b'0', b"AXX"), b"\n08A0AX8F\r".to_vec()]);
    let (mut moved, mut unmoved) = (0, 0);
    for _ in 0..40 {
        let telegram = any_form(&mut random, 3);
        let record = Record::read(3, &read(3, &telegram).expect("a made telegram"));
        if !by_master(3, record.type_byte) {
            continue;
        }
        for (frame, time) in heard.iter().flat_map(|f| [(f, 1_999), (f, 2_000)]) {
            for operation in [false, true] {
                let mut master = waiting(operation, record.clone());
                let (told, bytes) = master.hear(time, ROOM, frame);
                let key = b"AXY".iter().find(|key| {
                    *frame == framed(b'A', b'0', &[b'A', **key]) && record.type_byte == b't'
                });
                let wanted = match key {
                    Some(key) if time < 2_000 => *key == b'X',
                    _ => operation,
                };
                assert_eq!(master.operation, wanted, "{telegram:?} {frame:?} {told:?}");
                assert_eq!(master.t0, if bytes.is_empty() { 0 } else { time });
                moved += usize::from(wanted != operation);
                unmoved += usize::from(wanted == operation);
            }
        }
    }
    assert!(moved > 10 && unmoved > 10_000, "{moved} {unmoved}");
}

/// On lines 1 and 2 an A to t leaves T0 alone, whatever it carries.
#[test]
fn lines_1_and_2_have_one_time() {
    for (line, limit, type_byte, field) in &POLLS[..2] {
        for value in SET.bytes() {
            let (mut master, _) = Master::start(*line, 0);
            master.offer(100, ROOM, Record::with(b't', b't'));
            let told = master
                .hear(130, ROOM, &framed(b'A', b'0', &[b'A', value]))
                .0;
            assert_eq!(told, Told::Answered(Record::with(b'A', value), 1));
            assert!(!master.operation);
            polls_at(&master, 100, *limit, &framed(*type_byte, b'1', field));
        }
    }
}

/// A giving up leaves the flag as it is, and T0 runs from the last sending.
#[test]
fn a_giving_up_leaves_t0() {
    for operation in [false, true] {
        let limit = if operation { 20_000 } else { 10_000 };
        let poll = framed(b't', b'0', b"Bt");
        let mut silent = waiting(operation, Record::with(b't', b't'));
        let told = [2_000, 4_000, 6_000].map(|now| silent.tick(now, ROOM).0);
        assert_eq!(told, [Told::Again(2), Told::Again(3), Told::Silence(3)]);
        assert_eq!(silent.operation, operation);
        polls_at(&silent, 4_000, limit, &poll);
        let mut rejected = waiting(operation, Record::with(b't', b't'));
        let no = framed(b'N', b'0', b"N1");
        let told = [10, 20, 30].map(|now| rejected.hear(now, ROOM, &no).0);
        assert_eq!(told, [Told::Again(2), Told::Again(3), Told::Rejected(3)]);
        assert_eq!(rejected.operation, operation);
        polls_at(&rejected, 20, limit, &poll);
    }
}

/// A limit that comes down below what has passed of T0: the next tick polls. Such a T0 is older than T2,
/// so the state is made.
#[test]
fn t0_may_be_over_when_its_limit_comes_down() {
    for face in faces() {
        for (key, polled) in [(b'A', true), (b'Y', true), (b'X', false)] {
            let mut master = waiting(true, Record::with(b't', b't'));
            master.t2 = 14_000;
            let mut ends = BothEnds::new(face);
            ends.master.copy_from_slice(&master_block(&master));
            let answer = framed(b'A', b'0', &[b'A', key]);
            assert_eq!(ends.on_master(Call::MasterHear(14_100, &answer)).refusal, 0);
            let after = master_in(&ends.master).expect("a master");
            assert_eq!((after.t0, after.operation), (0, key == b'X'));
            let written = ends.on_master(Call::MasterTick(14_100)).written;
            assert_eq!(written > 0, polled, "{key}");
        }
    }
}

/// The calls of a master, on its bytes.
fn refusals(face: &dyn Face, bytes: &[u8]) -> [u32; 3] {
    let offer = record_block(&Record::with(b't', b't'));
    let no = framed(b'A', b'0', b"AA");
    let calls = [
        Call::MasterOffer(5, &offer),
        Call::MasterTick(5),
        Call::MasterHear(5, &no),
    ];
    calls.map(|call| {
        let (mut state, mut out, mut record) = (bytes.to_vec(), [b'#'; ROOM], [0; 64]);
        let answer = face.call(call, &mut state, &mut out, &mut record);
        let unmoved = state == bytes && out == [b'#'; ROOM];
        assert!(answer.refusal == 0 || unmoved, "{call:?}");
        answer.refusal
    })
}

/// The flag is one byte, 0 or 1, and 1 on line 3 only; bytes without it are no state.
#[test]
fn the_flag_in_the_state() {
    assert_eq!(MASTER, 77);
    for face in faces() {
        for line in 1..=3 {
            let mut bytes = vec![9; MASTER];
            let start = Call::MasterStart(line, 0);
            assert_eq!(face.call(start, &mut bytes, &mut [], &mut []).refusal, 0);
            for value in 0..=255 {
                bytes[OPERATION_AT] = value;
                let fits = value == 0 || (value == 1 && line == 3);
                let wanted = if fits { [0; 3] } else { [15; 3] };
                assert_eq!(refusals(face, &bytes), wanted, "line {line}, {value}");
            }
            bytes[OPERATION_AT] = 0;
            let old = [&bytes[..OPERATION_AT], &bytes[OPERATION_AT + 1..]].concat();
            let long = [&bytes[..], &[0]].concat();
            for mut other in [old, long] {
                assert_eq!(refusals(face, &other), [15; 3], "line {line}");
                assert_eq!(face.call(start, &mut other, &mut [], &mut []).refusal, 15);
            }
        }
    }
}

/// What a refused or ignored hearing leaves: the whole state.
#[test]
fn a_hearing_without_room_leaves_the_flag() {
    let x = framed(b'A', b'0', b"AX");
    let mut master = waiting(false, Record::with(b't', b't'));
    let before = master_block(&master);
    assert_eq!(master.hear(10, ROOM - 1, &x).0, Told::Refused(14));
    assert_eq!(master.hear(2_000, ROOM, &x).0, Told::Ignored(Why::RunOut));
    assert_eq!(master_block(&master), before);
}

/// The times of the polls on a quiet line, where each answer comes at once; the panel turns the key at its times.
fn polled(line: u8, keys: &[(u32, u8)], until: u32) -> Vec<u32> {
    let mut ends = BothEnds::new(&Second);
    let mut times = Vec::new();
    ends.start(line, 0);
    for now in (0..=until).step_by(10) {
        for (_, key) in keys.iter().filter(|(time, _)| *time == now) {
            assert_eq!(ends.desk_key(*key), Ok(()));
        }
        assert_eq!(ends.desk_tick(now), Ok(false));
        let (told, sent) = ends.master_tick(now, ROOM);
        if told == Told::Polled(1) {
            times.push(now);
            let (_, _, answer) = ends.desk_hear(now, ROOM, &sent).expect("a hearing");
            let (told, _) = ends.master_hear(now, ROOM, &answer);
            assert!(matches!(told, Told::Answered(_, 1)), "{told:?}");
        }
    }
    times
}

/// Quiet lines: polls alone keep the desk from noting a lost line, and follow the key.
#[test]
fn quiet_lines() {
    assert_eq!(polled(1, &[], 65_000), [20_000, 40_000, 60_000]);
    assert_eq!(polled(2, &[], 16_000), [5_000, 10_000, 15_000]);
    assert_eq!(polled(3, &[], 35_000), [10_000, 20_000, 30_000]);
    let keys = [
        (15_000, b'X'),
        (45_000, b'Y'),
        (65_000, b'X'),
        (95_000, b'A'),
    ];
    let times = [10, 20, 40, 60, 70, 90, 110, 120, 130].map(|seconds| seconds * 1_000);
    assert_eq!(polled(3, &keys, 135_000), times);
}
