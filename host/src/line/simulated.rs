//! A simulated line with its two ends, and what happens on it. One thing is under way at a time: a sending of the master, or
//! the desk's answer. It is lost, or arrives once, whole or spoiled; a later sending or a giving up loses what is still under way.

use crate::line::ends::Ends;
use crate::second::desk::{Hearing, Refusal, ROOM};
use crate::second::master::Told;
use crate::second::reading::read;
use crate::second::records::Record;

/// The end that a thing goes to.
#[derive(Debug, Clone, Copy, PartialEq, Eq)]
pub enum To {
    Desk,
    Master,
}

/// A sending or an answer under way, and when it was sent.
pub struct Flight {
    pub to: To,
    pub frame: Vec<u8>,
    pub sent: u32,
}

/// How what is under way arrives.
pub enum Arrival {
    Whole,
    Spoiled(Vec<u8>),
    /// A byte of it comes with a parity error: the desk gets a tick and no frame.
    Hit,
    Lost,
}

/// What happens on a line.
#[derive(Debug, Clone, PartialEq, Eq)]
pub enum Event {
    Dead,
    Back,
    Lost(To),
    /// A thing is hit; whether the desk noted the line lost at its tick.
    Hit(To, bool),
    /// A thing is spoiled to this frame, which the end then hears.
    Spoiled(To, Vec<u8>),
    /// The desk noted the line lost at a tick of its own.
    Noted,
    /// The desk heard a frame.
    Heard(Vec<u8>, Hearing),
    /// The master told something and sent a frame; the first frame is what it heard. Both may be empty.
    Told(Vec<u8>, Told, Vec<u8>),
    /// The panel queued a record or set it for r, and what the desk said of it.
    Queued(Record, Result<(), Refusal>),
    Set(Record, Result<(), Refusal>),
    /// The driver turned the key.
    Key(u8),
}

/// An event with its time and the ordinal of the newest telegram; a telegram counts when it is first sent.
#[derive(Debug, Clone, PartialEq, Eq)]
pub struct Happened {
    pub now: u32,
    pub telegram: usize,
    pub event: Event,
}

/// The line: its number, its time, what is under way, whether the master is free, and what happened so far.
pub struct Line<'a, E> {
    ends: &'a mut E,
    pub number: u8,
    pub now: u32,
    pub under_way: Option<Flight>,
    pub free: bool,
    telegram: usize,
    pub happened: Vec<Happened>,
}

impl<E: Ends> Line<'_, E> {
    /// Starts both ends on a line.
    pub fn start(ends: &mut E, number: u8, now: u32) -> Line<'_, E> {
        ends.start(number, now);
        Line {
            ends,
            number,
            now,
            under_way: None,
            free: true,
            telegram: 0,
            happened: Vec::new(),
        }
    }

    /// Notes an event.
    pub fn note(&mut self, event: Event) {
        self.happened.push(Happened {
            now: self.now,
            telegram: self.telegram,
            event,
        });
    }

    pub fn queue(&mut self, record: Record) {
        let said = self.ends.desk_queue(&record);
        self.note(Event::Queued(record, said));
    }

    pub fn set(&mut self, record: Record) {
        let said = self.ends.desk_set(&record);
        self.note(Event::Set(record, said));
    }

    pub fn turn_key(&mut self, key: u8) {
        self.ends.desk_key(key).expect("a key of line 3");
        self.note(Event::Key(key));
    }

    /// Whether the desk notes the line lost now.
    fn desk_ticks(&mut self) -> bool {
        self.ends.desk_tick(self.now).expect("a started desk")
    }

    pub fn tick_desk(&mut self) {
        if self.desk_ticks() {
            self.note(Event::Noted);
        }
    }

    pub fn tick_master(&mut self) {
        let did = self.ends.master_tick(self.now, ROOM);
        self.told(Vec::new(), did);
    }

    pub fn offer(&mut self, record: &Record) {
        let did = self.ends.master_offer(self.now, ROOM, record);
        self.told(Vec::new(), did);
    }

    /// What is under way arrives at its end, which has so much room for what it sends.
    pub fn arrive(&mut self, arrival: Arrival, room: usize) {
        let Some(Flight { to, frame, .. }) = self.under_way.take() else {
            return;
        };
        let frame = match arrival {
            Arrival::Lost => return self.note(Event::Lost(to)),
            Arrival::Hit => {
                let noted = to == To::Desk && self.desk_ticks();
                return self.note(Event::Hit(to, noted));
            }
            Arrival::Spoiled(spoiled) => {
                self.note(Event::Spoiled(to, spoiled.clone()));
                spoiled
            }
            Arrival::Whole => frame,
        };
        // a hearing without room is refused, and what it should have heard is lost
        let refusal = (room < ROOM).then_some(14);
        match to {
            To::Desk => {
                let heard = self.ends.desk_hear(self.now, room, &frame);
                assert_eq!(heard.as_ref().err().copied(), refusal, "the desk's room");
                match heard {
                    Ok(hearing) => self.heard(frame, hearing),
                    Err(_) => self.note(Event::Lost(to)),
                }
            }
            To::Master => {
                let did = self.ends.master_hear(self.now, room, &frame);
                let refused = match did.0 {
                    Told::Refused(refused) => Some(refused),
                    _ => None,
                };
                assert_eq!(refused, refusal, "the master's room");
                self.told(frame, did);
            }
        }
    }

    /// The desk heard a frame; what it sent is under way then.
    fn heard(&mut self, frame: Vec<u8>, hearing: Hearing) {
        self.send(To::Master, &hearing.2);
        self.note(Event::Heard(frame, hearing));
    }

    /// The master told something; what it sent is under way then, as a new telegram where it is not sent again.
    fn told(&mut self, heard: Vec<u8>, (told, sent): (Told, Vec<u8>)) {
        match told {
            Told::Nothing => return,
            Told::Refused(_) | Told::Ignored(_) => {}
            Told::Answered(..) | Told::OtherKind(..) => self.free = true,
            Told::Again(_) => self.lose(),
            Told::Sent(_) | Told::Polled(_) => {
                self.lose();
                self.telegram += 1;
                self.free = false;
            }
            Told::Silence(_) | Told::Rejected(_) => {
                self.lose();
                self.free = true;
            }
        }
        self.send(To::Desk, &sent);
        self.note(Event::Told(heard, told, sent));
    }

    /// What is under way is lost.
    fn lose(&mut self) {
        if let Some(flight) = self.under_way.take() {
            self.note(Event::Lost(flight.to));
        }
    }

    /// Puts a frame on its way, where there is one.
    fn send(&mut self, to: To, frame: &[u8]) {
        if !frame.is_empty() {
            self.under_way = Some(Flight {
                to,
                frame: frame.to_vec(),
                sent: self.now,
            });
        }
    }
}

/// A frame that checks 1 to 7 refuse: what is made is thrown away until they do.
pub fn spoiled(line: u8, mut make: impl FnMut() -> Vec<u8>) -> Vec<u8> {
    loop {
        let frame = make();
        if matches!(read(line, &frame), Err((1..=7, _))) {
            return frame;
        }
    }
}
