//! The numbers of the two ends.

use super::{changed, k, telegram, Found, K};
use host::line::faced::BothEnds;
use host::second::blocks::record_block;
use host::second::face::Call;
use host::second::framing::framed;
use host::second::records::Record;

impl Found<'_> {
    /// A desk of line 3 in each of its outcomes.
    pub fn desk(&mut self) {
        let mut ends = BothEnds::new(self.face);
        let block = record_block(&k());
        self.is("DESK_DONE", ends.on_desk(Call::DeskStart(3)).outcome);
        let r = |number| telegram(b'r', number, b"BK");
        let t = |number| telegram(b't', number, b"Bt");
        let heard = [
            ("SILENT", "", Vec::new(), None),
            ("FAULT", "", changed(r(0), 7, b'x'), None),
            ("HANDLED", "KEY", t(0), None),
            ("REPEAT", "", t(0), None),
            ("HANDLED", "NOTHING", r(1), None),
            ("HANDLED", "REQUEST", r(0), Some(Call::DeskSet(&block))),
            ("HANDLED", "QUEUE", t(1), Some(Call::DeskQueue)),
            ("HANDLED", "PANEL", telegram(b'o', 0, b"S12"), None),
            ("HANDLED", "CONTENTS", telegram(b'c', 1, b"mS"), None),
            ("HANDLED", "DIRECTION", telegram(b'K', 0, K), None),
        ];
        for (outcome, source, frame, before) in heard {
            if let Some(call) = before {
                ends.record = block;
                self.is("DESK_DONE", ends.on_desk(call).outcome);
            }
            let answer = ends.on_desk(Call::DeskHear(5, &frame));
            self.is(&format!("DESK_{outcome}"), answer.outcome);
            if !source.is_empty() {
                self.is(&format!("FROM_{source}"), answer.detail);
            }
        }
        ends.record = block;
        let queued: Vec<_> = (0..20).map(|_| ends.on_desk(Call::DeskQueue)).collect();
        let size = queued.iter().take_while(|answer| answer.refusal == 0);
        self.is("QUEUE_SIZE", size.count() as u64);
        self.is("QUEUE_FULL", queued[19].refusal);
    }

    /// A master of line 3 in each of its outcomes.
    pub fn master(&mut self) {
        let mut ends = BothEnds::new(self.face);
        let offered = record_block(&Record {
            type_byte: b'o',
            values: vec![12],
        });
        let no = |number| telegram(b'N', number, b"N1");
        let calls = [
            ("NOTHING", "", Call::MasterStart(3, 0)),
            ("NOTHING", "", Call::MasterTick(9_999)),
            ("IGNORED", "FREE", Call::MasterHear(9_999, &no(0))),
            ("SENT", "POLL", Call::MasterTick(10_000)),
            ("IGNORED", "CONTENTS", Call::MasterHear(10_000, &[])),
            ("IGNORED", "OTHER_NUMBER", Call::MasterHear(10_000, &no(1))),
            ("IGNORED", "RUN_OUT", Call::MasterHear(12_000, &no(0))),
            ("SENT", "AGAIN", Call::MasterTick(12_000)),
            ("SENT", "AGAIN", Call::MasterTick(14_000)),
            ("GIVEN_UP", "SILENCE", Call::MasterTick(16_000)),
            ("SENT", "OFFERED", Call::MasterOffer(16_000, &offered)),
            ("SENT", "AGAIN", Call::MasterHear(16_000, &no(0))),
            ("SENT", "AGAIN", Call::MasterHear(16_000, &no(0))),
            ("GIVEN_UP", "REJECTED", Call::MasterHear(16_000, &no(0))),
            ("SENT", "OFFERED", Call::MasterOffer(16_000, &offered)),
            (
                "ANSWERED",
                "",
                Call::MasterHear(16_000, &telegram(b'A', 0, b"AA")),
            ),
            ("SENT", "OFFERED", Call::MasterOffer(16_000, &offered)),
            (
                "OTHER_KIND",
                "",
                Call::MasterHear(16_000, &telegram(b'K', 1, K)),
            ),
            ("SENT", "OFFERED", Call::MasterOffer(16_000, &offered)),
        ];
        for (outcome, detail, call) in calls {
            let answer = ends.on_master(call);
            self.is(&format!("MASTER_{outcome}"), answer.outcome);
            if !detail.is_empty() {
                self.is(&format!("{outcome}_{detail}"), answer.detail);
            }
        }
        self.is(
            "NOT_FREE",
            ends.on_master(Call::MasterOffer(16_000, &offered)).refusal,
        );
    }

    /// The keys that a desk of line 3 takes, lowest first. X says position Operation.
    pub fn keys(&mut self) {
        let mut ends = BothEnds::new(self.face);
        ends.on_desk(Call::DeskStart(3));
        let taken = |key: &u32| ends.on_desk(Call::DeskKey(*key)).refusal == 0;
        let keys: Vec<u32> = (0..70_000).filter(taken).collect();
        assert_eq!(keys.len(), 3);
        for (name, key) in ["KEY_A", "KEY_X", "KEY_Y"].into_iter().zip(keys) {
            self.is(name, key);
            ends.on_master(Call::MasterStart(3, 0));
            ends.on_master(Call::MasterTick(10_000));
            let answer = framed(b'A', b'0', &[b'A', key as u8]);
            ends.on_master(Call::MasterHear(10_000, &answer));
            let look = ends.on_master(Call::MasterLook);
            self.is("MASTER_FREE", look.outcome);
            assert_eq!(look.detail, u32::from(name == "KEY_X"), "{name}");
            let due = ends.on_master(Call::MasterDue(10_000));
            let timer = ["T0_LINE_3", "T0_LINE_3_OPERATION"][look.detail as usize];
            self.is(timer, due.detail);
        }
    }

    /// The timers, as what is due says, and the sendings until a giving up.
    pub fn timers(&mut self) {
        let mut ends = BothEnds::new(self.face);
        for line in 1..=3 {
            ends.on_master(Call::MasterStart(line, 7));
            let due = ends.on_master(Call::MasterDue(7));
            self.is("DUE_AFTER", due.outcome);
            self.is(&format!("T0_LINE_{line}"), due.detail);
            ends.on_master(Call::MasterTick(7 + due.detail));
            let waits = ends.on_master(Call::MasterDue(7 + due.detail));
            self.is("T2", waits.detail);
            self.is("MASTER_WAITING", ends.on_master(Call::MasterLook).outcome);
            let mut now = 7 + due.detail;
            let given_up = loop {
                now += waits.detail;
                let answer = ends.on_master(Call::MasterTick(now));
                if answer.written == 0 {
                    break answer;
                }
            };
            self.is("SENDINGS", given_up.count);
            self.is("MASTER_FREE", ends.on_master(Call::MasterLook).outcome);
            ends.on_desk(Call::DeskStart(line));
            self.is("DUE_NEVER", ends.on_desk(Call::DeskDue(7)).outcome);
            ends.on_desk(Call::DeskHear(7, &telegram(b't', 0, b"Bt")));
            let due = ends.on_desk(Call::DeskDue(7));
            self.is("DUE_AFTER", due.outcome);
            self.is("T1", due.detail);
        }
    }
}
