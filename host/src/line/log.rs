//! The log of what happened on a line, and the sample of one.

use crate::line::demo::run;
use crate::line::faced::BothEnds;
use crate::line::odds::IDLE;
use crate::line::simulated::{Event, Happened, To};
use crate::second::face::{Call, Face};
use crate::second::logs::{Mark, HEAD};
use crate::second::reading::LONGEST;
use crate::second::Second;

/// The seed and the milliseconds of the sample.
const SCHOOL: (u64, u32) = (2491, 90_000);

/// The records of a thing that happened: each frame that the desk hears, as it arrives, each that it sends, and each hit. A
/// tick of the desk is logged as a hit where it notes the line lost.
fn records(event: &Event) -> Vec<(Mark, &[u8])> {
    match event {
        Event::Noted | Event::Hit(To::Desk, _) => vec![(Mark::Hit, b"")],
        Event::Heard(frame, (_, _, sent)) if sent.is_empty() => vec![(Mark::Master, frame)],
        Event::Heard(frame, (_, _, sent)) => vec![(Mark::Master, frame), (Mark::Slave, sent)],
        _ => Vec::new(),
    }
}

/// The file of a log: the line digit, and the records as a face writes them.
pub fn written(face: &dyn Face, line: u8, happened: &[Happened]) -> Vec<u8> {
    let mut file = vec![b'0' + line];
    for thing in happened {
        for (mark, bytes) in records(&thing.event) {
            let mut room = [0; HEAD + LONGEST];
            let call = Call::LogWrite(mark.number(), thing.now, bytes);
            let answer = face.call(call, &mut [], &mut room, &mut []);
            assert_eq!(answer.refusal, 0, "{call:?}");
            file.extend(room.iter().take(answer.written as usize));
        }
    }
    file
}

/// The sample of a log: an exchange of the demonstration on line 1 with an idle panel.
pub fn school() -> Vec<u8> {
    let mut ends = BothEnds::new(&Second);
    let happened = run(&mut ends, &IDLE, 1, SCHOOL.0, SCHOOL.1);
    written(&Second, 1, &happened)
}
