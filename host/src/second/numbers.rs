//! The outcomes of the calls and their details, by the names of `include/in656.h`.

/// The version: the edition, its calls and its corrections, a byte for each of the last two.
pub const VERSION: u32 = 0x0001_0000;

/// Of a gathered byte, a hit and a search: there is a telegram.
pub const TELEGRAM: u32 = 1;

/// Of a type's packet: who sends the type.
pub const BY_MASTER: u32 = 1;
pub const BY_SLAVE: u32 = 2;

/// Of an end: whether a tick will do something.
pub const DUE_NEVER: u32 = 0;
pub const DUE_AFTER: u32 = 1;

pub const DESK_DONE: u32 = 1;
pub const DESK_SILENT: u32 = 2;
pub const DESK_FAULT: u32 = 3;
pub const DESK_REPEAT: u32 = 4;
pub const DESK_HANDLED: u32 = 5;

pub const FROM_REQUEST: u32 = 1;
pub const FROM_QUEUE: u32 = 2;
pub const FROM_KEY: u32 = 3;
pub const FROM_PANEL: u32 = 4;
pub const FROM_CONTENTS: u32 = 5;
pub const FROM_DIRECTION: u32 = 6;
pub const FROM_NOTHING: u32 = 7;

pub const MASTER_NOTHING: u32 = 1;
pub const MASTER_SENT: u32 = 2;
pub const MASTER_ANSWERED: u32 = 3;
pub const MASTER_OTHER_KIND: u32 = 4;
pub const MASTER_GIVEN_UP: u32 = 5;
pub const MASTER_IGNORED: u32 = 6;

/// Of a look at the master.
pub const MASTER_FREE: u32 = 1;
pub const MASTER_WAITING: u32 = 2;

pub const SENT_OFFERED: u32 = 1;
pub const SENT_AGAIN: u32 = 2;
pub const SENT_POLL: u32 = 3;

pub const GIVEN_UP_SILENCE: u32 = 1;
pub const GIVEN_UP_REJECTED: u32 = 2;

pub const IGNORED_FREE: u32 = 1;
pub const IGNORED_RUN_OUT: u32 = 2;
pub const IGNORED_CONTENTS: u32 = 3;
pub const IGNORED_OTHER_NUMBER: u32 = 4;
