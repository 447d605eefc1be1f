//! Both ends behind a face, as blocks in one process.

use crate::line::ends::Ends;
use crate::second::blocks::{record_block, record_in, DESK, MASTER, RECORD};
use crate::second::desk::{Heard, Hearing, Refusal, Source, ROOM};
use crate::second::face::{Answer, Call, Face};
use crate::second::master::{Told, Why};
use crate::second::numbers::*;
use crate::second::records::Record;

/// A desk and a master, and what is lent to their calls.
pub struct BothEnds<'a> {
    face: &'a dyn Face,
    pub desk: [u8; DESK],
    pub master: [u8; MASTER],
    pub out: [u8; ROOM],
    pub record: [u8; RECORD],
}

impl BothEnds<'_> {
    /// Two blank states, of no line.
    pub fn new(face: &dyn Face) -> BothEnds<'_> {
        BothEnds {
            face,
            desk: [0; DESK],
            master: [0; MASTER],
            out: [0; ROOM],
            record: [0; RECORD],
        }
    }

    pub fn on_desk(&mut self, call: Call) -> Answer {
        self.desk_with(ROOM, call)
    }

    pub fn on_master(&mut self, call: Call) -> Answer {
        self.master_with(ROOM, call)
    }

    /// A call of the desk with so much room for what it may send.
    fn desk_with(&mut self, room: usize, call: Call) -> Answer {
        let out = &mut self.out[..room];
        self.face.call(call, &mut self.desk, out, &mut self.record)
    }

    fn master_with(&mut self, room: usize, call: Call) -> Answer {
        let out = &mut self.out[..room];
        self.face
            .call(call, &mut self.master, out, &mut self.record)
    }

    /// What a call sent.
    pub fn sent(&self, answer: Answer) -> &[u8] {
        self.out.get(..answer.written as usize).unwrap_or_default()
    }

    fn filled(&self) -> Record {
        record_in(&self.record).expect("the block that the library filled")
    }

    /// What came of a frame that the desk heard.
    fn heard(&self, answer: Answer) -> Heard {
        let contents = (answer.contents as u8, answer.place as usize);
        let source = match answer.detail {
            FROM_REQUEST => Source::Requested,
            FROM_QUEUE => Source::Queue,
            FROM_KEY => Source::Key(self.out[6]),
            FROM_PANEL => Source::Panel(self.filled()),
            FROM_CONTENTS => Source::Contents(contents.0, contents.1),
            FROM_DIRECTION => Source::NotMaster,
            _ => Source::NothingSet,
        };
        match answer.outcome {
            DESK_SILENT => Heard::Silent(contents.0, contents.1),
            DESK_FAULT => Heard::Fault,
            DESK_REPEAT => Heard::Repeat,
            _ => Heard::Handled(source),
        }
    }

    /// What a call of the master did, and what it sent.
    fn told(&self, answer: Answer) -> (Told, Vec<u8>) {
        let count = answer.count as u8;
        let contents = (answer.contents as u8, answer.place as usize);
        let told = match (answer.outcome, answer.detail) {
            _ if answer.refusal != 0 => Told::Refused(answer.refusal as u8),
            (MASTER_NOTHING, _) => Told::Nothing,
            (MASTER_SENT, SENT_OFFERED) => Told::Sent(count),
            (MASTER_SENT, SENT_AGAIN) => Told::Again(count),
            (MASTER_SENT, _) => Told::Polled(count),
            (MASTER_ANSWERED, _) => Told::Answered(self.filled(), count),
            (MASTER_OTHER_KIND, _) if answer.record == 1 => {
                Told::OtherKind(Ok(self.filled()), count)
            }
            (MASTER_OTHER_KIND, _) => Told::OtherKind(Err(contents), count),
            (MASTER_GIVEN_UP, GIVEN_UP_SILENCE) => Told::Silence(count),
            (MASTER_GIVEN_UP, _) => Told::Rejected(count),
            (_, IGNORED_FREE) => Told::Ignored(Why::Free),
            (_, IGNORED_RUN_OUT) => Told::Ignored(Why::RunOut),
            (_, IGNORED_CONTENTS) => Told::Ignored(Why::Refused(contents.0, contents.1)),
            _ => Told::Ignored(Why::OtherNumber),
        };
        (told, self.sent(answer).to_vec())
    }
}

/// The answer of a call that is not refused.
fn taken(answer: Answer) -> Result<Answer, Refusal> {
    match answer.refusal {
        0 => Ok(answer),
        refusal => Err(refusal as u8),
    }
}

impl Ends for BothEnds<'_> {
    fn start(&mut self, line: u8, now: u32) {
        self.on_desk(Call::DeskStart(line.into()));
        self.on_master(Call::MasterStart(line.into(), now));
    }

    fn desk_tick(&mut self, now: u32) -> Result<bool, Refusal> {
        Ok(taken(self.on_desk(Call::DeskTick(now)))?.lost == 1)
    }

    fn desk_queue(&mut self, record: &Record) -> Result<(), Refusal> {
        self.record = record_block(record);
        taken(self.on_desk(Call::DeskQueue)).map(|_| ())
    }

    fn desk_set(&mut self, record: &Record) -> Result<(), Refusal> {
        taken(self.on_desk(Call::DeskSet(&record_block(record)))).map(|_| ())
    }

    fn desk_key(&mut self, key: u8) -> Result<(), Refusal> {
        taken(self.on_desk(Call::DeskKey(key.into()))).map(|_| ())
    }

    fn desk_hear(&mut self, now: u32, room: usize, frame: &[u8]) -> Result<Hearing, Refusal> {
        let answer = taken(self.desk_with(room, Call::DeskHear(now, frame)))?;
        let sent = self.sent(answer).to_vec();
        Ok((answer.lost == 1, self.heard(answer), sent))
    }

    fn master_offer(&mut self, now: u32, room: usize, record: &Record) -> (Told, Vec<u8>) {
        let block = record_block(record);
        let answer = self.master_with(room, Call::MasterOffer(now, &block));
        self.told(answer)
    }

    fn master_tick(&mut self, now: u32, room: usize) -> (Told, Vec<u8>) {
        let answer = self.master_with(room, Call::MasterTick(now));
        self.told(answer)
    }

    fn master_hear(&mut self, now: u32, room: usize, frame: &[u8]) -> (Told, Vec<u8>) {
        let answer = self.master_with(room, Call::MasterHear(now, frame));
        self.told(answer)
    }
}
