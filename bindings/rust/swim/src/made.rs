//! Codes, notes, kinds and phases. Made of c/swim.h by .ci/bindings.

use std::os::raw::c_int;
use swim_sys as sys;

/// Why a call did nothing.
#[derive(Clone, Copy, Debug, PartialEq, Eq, Hash)]
#[non_exhaustive]
pub enum Code {
    /// `SWIM_NOTHING`: no datagram waits, or no change is left.
    Nothing,
    /// `SWIM_NULL`: a pointer is null that may not be.
    Null,
    /// `SWIM_CLOSED`: the handle is closed.
    Closed,
    /// `SWIM_IS_OPEN`: the handle is open already.
    IsOpen,
    /// `SWIM_NO_ENDPOINT`: the own port or that of a peer or seed is 0.
    NoEndpoint,
    /// `SWIM_WAITING`: datagrams of the last event wait: take them by swim_next_datagram first.
    Waiting,
    /// `SWIM_SHORT`: the buffer is too short, and the datagram still waits.
    Short,
    /// `SWIM_NO_MEMORY`.
    NoMemory,
    /// `SWIM_FILE`: the system refused the file or a call on it: errno says why.
    File,
    /// `SWIM_LOCKED`: another handle or another process has the state file.
    Locked,
    /// `SWIM_BAD_LAMBDA`.
    BadLambda,
    /// `SWIM_BAD_PERIOD`.
    BadPeriod,
    /// `SWIM_BAD_DIRECT`.
    BadDirect,
    /// `SWIM_BAD_SUSPECT`.
    BadSuspect,
    /// `SWIM_BAD_FORGET`.
    BadForget,
    /// `SWIM_BAD_HELPERS`.
    BadHelpers,
    /// `SWIM_BAD_BLOCK`.
    BadBlock,
    /// `SWIM_BAD_RULES`.
    BadRules,
    /// `SWIM_BAD_ADDRESS`: no member is reached at the own address: it is 0.0.0.0, 255.255.255.255 or of multicast.
    BadAddress,
    /// `SWIM_BAD_RESERVED`: a byte of `reserved` is not 0.
    BadReserved,
    /// `SWIM_OPEN_DEVICE`: a read, write or sync failed, errno says why: the opening may be tried again.
    OpenDevice,
    /// `SWIM_OPEN_NOT_STATE`: it is no state file.
    OpenNotState,
    /// `SWIM_OPEN_WRONG_OWNER`: it is of another group or endpoint.
    OpenWrongOwner,
    /// `SWIM_OPEN_NO_SLOT`: swim_make_state was cut short, or else something wrote the file: see swim_make_state.
    OpenNoSlot,
    /// `SWIM_OPEN_DAMAGED`: something else wrote the file, or the disk lost what it had synced: docs/operate/INCIDENTS.md.
    OpenDamaged,
    /// `SWIM_OPEN_EXHAUSTED`: there is no incarnation left.
    OpenExhausted,
    /// `SWIM_OPEN_LIMIT`: `limit` is 0 or above SWIM_LIMIT_MAX.
    OpenLimit,
    /// `SWIM_OPEN_NO_MEMORY`.
    OpenNoMemory,
    /// `SWIM_MAKE_NOT_EMPTY`: the file has bytes, and nothing was written.
    MakeNotEmpty,
    /// `SWIM_MAKE_DEVICE`: a write or sync failed, errno says why: the file is not to be used.
    MakeDevice,
    /// `SWIM_MAKE_RANGE`: does not come.
    MakeRange,
    /// `SWIM_KEEP_DEVICE`: a write or sync failed: errno says why.
    KeepDevice,
    /// `SWIM_KEEP_CHANGED`: the file is not as the member left it.
    KeepChanged,
    /// `SWIM_KEEP_EXHAUSTED`: there is no incarnation left.
    KeepExhausted,
    /// `SWIM_BUSY`: another thread is in a call on this handle.
    Busy,
    /// `SWIM_FORKED`: the handle was opened before this process was forked: it is the parent's.
    Forked,
    /// `SWIM_BAD_DESCRIPTOR`: it is not open for both reading and writing, or it has O_APPEND.
    BadDescriptor,
    /// `SWIM_TOO_MANY`: more than SWIM_SEEDS_MAX seeds.
    TooMany,
    /// `SWIM_NO_HANDLE`: the struct is no handle, neither closed nor open: it did not begin with all bytes 0, or was written over.
    NoHandle,
    /// One that this crate does not know: the library is newer.
    Unknown(c_int),
}

impl Code {
    /// The one of this number in swim.h.
    pub fn of(number: c_int) -> Code {
        match c_int::from(number) {
            sys::SWIM_NOTHING => Code::Nothing,
            sys::SWIM_NULL => Code::Null,
            sys::SWIM_CLOSED => Code::Closed,
            sys::SWIM_IS_OPEN => Code::IsOpen,
            sys::SWIM_NO_ENDPOINT => Code::NoEndpoint,
            sys::SWIM_WAITING => Code::Waiting,
            sys::SWIM_SHORT => Code::Short,
            sys::SWIM_NO_MEMORY => Code::NoMemory,
            sys::SWIM_FILE => Code::File,
            sys::SWIM_LOCKED => Code::Locked,
            sys::SWIM_BAD_LAMBDA => Code::BadLambda,
            sys::SWIM_BAD_PERIOD => Code::BadPeriod,
            sys::SWIM_BAD_DIRECT => Code::BadDirect,
            sys::SWIM_BAD_SUSPECT => Code::BadSuspect,
            sys::SWIM_BAD_FORGET => Code::BadForget,
            sys::SWIM_BAD_HELPERS => Code::BadHelpers,
            sys::SWIM_BAD_BLOCK => Code::BadBlock,
            sys::SWIM_BAD_RULES => Code::BadRules,
            sys::SWIM_BAD_ADDRESS => Code::BadAddress,
            sys::SWIM_BAD_RESERVED => Code::BadReserved,
            sys::SWIM_OPEN_DEVICE => Code::OpenDevice,
            sys::SWIM_OPEN_NOT_STATE => Code::OpenNotState,
            sys::SWIM_OPEN_WRONG_OWNER => Code::OpenWrongOwner,
            sys::SWIM_OPEN_NO_SLOT => Code::OpenNoSlot,
            sys::SWIM_OPEN_DAMAGED => Code::OpenDamaged,
            sys::SWIM_OPEN_EXHAUSTED => Code::OpenExhausted,
            sys::SWIM_OPEN_LIMIT => Code::OpenLimit,
            sys::SWIM_OPEN_NO_MEMORY => Code::OpenNoMemory,
            sys::SWIM_MAKE_NOT_EMPTY => Code::MakeNotEmpty,
            sys::SWIM_MAKE_DEVICE => Code::MakeDevice,
            sys::SWIM_MAKE_RANGE => Code::MakeRange,
            sys::SWIM_KEEP_DEVICE => Code::KeepDevice,
            sys::SWIM_KEEP_CHANGED => Code::KeepChanged,
            sys::SWIM_KEEP_EXHAUSTED => Code::KeepExhausted,
            sys::SWIM_BUSY => Code::Busy,
            sys::SWIM_FORKED => Code::Forked,
            sys::SWIM_BAD_DESCRIPTOR => Code::BadDescriptor,
            sys::SWIM_TOO_MANY => Code::TooMany,
            sys::SWIM_NO_HANDLE => Code::NoHandle,
            _ => Code::Unknown(number),
        }
    }

    /// Its number in swim.h.
    pub fn number(self) -> c_int {
        match self {
            Code::Nothing => sys::SWIM_NOTHING,
            Code::Null => sys::SWIM_NULL,
            Code::Closed => sys::SWIM_CLOSED,
            Code::IsOpen => sys::SWIM_IS_OPEN,
            Code::NoEndpoint => sys::SWIM_NO_ENDPOINT,
            Code::Waiting => sys::SWIM_WAITING,
            Code::Short => sys::SWIM_SHORT,
            Code::NoMemory => sys::SWIM_NO_MEMORY,
            Code::File => sys::SWIM_FILE,
            Code::Locked => sys::SWIM_LOCKED,
            Code::BadLambda => sys::SWIM_BAD_LAMBDA,
            Code::BadPeriod => sys::SWIM_BAD_PERIOD,
            Code::BadDirect => sys::SWIM_BAD_DIRECT,
            Code::BadSuspect => sys::SWIM_BAD_SUSPECT,
            Code::BadForget => sys::SWIM_BAD_FORGET,
            Code::BadHelpers => sys::SWIM_BAD_HELPERS,
            Code::BadBlock => sys::SWIM_BAD_BLOCK,
            Code::BadRules => sys::SWIM_BAD_RULES,
            Code::BadAddress => sys::SWIM_BAD_ADDRESS,
            Code::BadReserved => sys::SWIM_BAD_RESERVED,
            Code::OpenDevice => sys::SWIM_OPEN_DEVICE,
            Code::OpenNotState => sys::SWIM_OPEN_NOT_STATE,
            Code::OpenWrongOwner => sys::SWIM_OPEN_WRONG_OWNER,
            Code::OpenNoSlot => sys::SWIM_OPEN_NO_SLOT,
            Code::OpenDamaged => sys::SWIM_OPEN_DAMAGED,
            Code::OpenExhausted => sys::SWIM_OPEN_EXHAUSTED,
            Code::OpenLimit => sys::SWIM_OPEN_LIMIT,
            Code::OpenNoMemory => sys::SWIM_OPEN_NO_MEMORY,
            Code::MakeNotEmpty => sys::SWIM_MAKE_NOT_EMPTY,
            Code::MakeDevice => sys::SWIM_MAKE_DEVICE,
            Code::MakeRange => sys::SWIM_MAKE_RANGE,
            Code::KeepDevice => sys::SWIM_KEEP_DEVICE,
            Code::KeepChanged => sys::SWIM_KEEP_CHANGED,
            Code::KeepExhausted => sys::SWIM_KEEP_EXHAUSTED,
            Code::Busy => sys::SWIM_BUSY,
            Code::Forked => sys::SWIM_FORKED,
            Code::BadDescriptor => sys::SWIM_BAD_DESCRIPTOR,
            Code::TooMany => sys::SWIM_TOO_MANY,
            Code::NoHandle => sys::SWIM_NO_HANDLE,
            Code::Unknown(number) => number,
        }
    }
}

/// What an event took note of.
#[derive(Clone, Copy, Debug, PartialEq, Eq, Hash)]
#[non_exhaustive]
pub enum Note {
    /// `SWIM_NOTE_BAD_DATAGRAM`: the bytes are no datagram.
    BadDatagram,
    /// `SWIM_NOTE_OTHER_GROUP`: a datagram of another group.
    OtherGroup,
    /// `SWIM_NOTE_NOT_SENDER`: a datagram that names another sender than the address that it came from.
    NotSender,
    /// `SWIM_NOTE_FROM_SELF`: a datagram that names this member as its sender.
    FromSelf,
    /// `SWIM_NOTE_LEAP`: a suspicion of this member has an incarnation that is too far above its own.
    Leap,
    /// `SWIM_NOTE_NO_NUMBER_LEFT`: a suspicion of this member has the greatest incarnation.
    NoNumberLeft,
    /// `SWIM_NOTE_TABLE_FULL`: there is no room for a new member.
    TableFull,
    /// `SWIM_NOTE_MISDIRECTED`: a ping about another member, or a join to oneself.
    Misdirected,
    /// `SWIM_NOTE_RELAYS_FULL`: there is no room to ask one more member for another.
    RelaysFull,
    /// `SWIM_NOTE_UNKNOWN_TARGET`: somebody asked for a member that is not held for alive or suspected.
    UnknownTarget,
    /// `SWIM_NOTE_UNASKED`: an ack or a page that answers nothing that was asked.
    Unasked,
    /// `SWIM_NOTE_SAVE_FAILED`: the state file took no save: the own incarnation stays as it is.
    SaveFailed,
    /// `SWIM_NOTE_EXPELLED`: by rules 1: the group confirmed this member.
    Expelled,
    /// `SWIM_NOTE_STOPPED`: an event after the member left or was expelled.
    Stopped,
    /// `SWIM_NOTE_RECEIVE_FAILED`: swim_receive_failed.
    ReceiveFailed,
    /// `SWIM_NOTE_SEND_FAILED`: swim_send_failed.
    SendFailed,
    /// `SWIM_NOTE_TIME_OVER`: a tick at 2^62.
    TimeOver,
    /// `SWIM_NOTE_OTHER_VERSION`: a datagram of the other rules.
    OtherVersion,
    /// One that this crate does not know: the library is newer.
    Unknown(u8),
}

impl Note {
    /// The one of this number in swim.h.
    pub fn of(number: u8) -> Note {
        match c_int::from(number) {
            sys::SWIM_NOTE_BAD_DATAGRAM => Note::BadDatagram,
            sys::SWIM_NOTE_OTHER_GROUP => Note::OtherGroup,
            sys::SWIM_NOTE_NOT_SENDER => Note::NotSender,
            sys::SWIM_NOTE_FROM_SELF => Note::FromSelf,
            sys::SWIM_NOTE_LEAP => Note::Leap,
            sys::SWIM_NOTE_NO_NUMBER_LEFT => Note::NoNumberLeft,
            sys::SWIM_NOTE_TABLE_FULL => Note::TableFull,
            sys::SWIM_NOTE_MISDIRECTED => Note::Misdirected,
            sys::SWIM_NOTE_RELAYS_FULL => Note::RelaysFull,
            sys::SWIM_NOTE_UNKNOWN_TARGET => Note::UnknownTarget,
            sys::SWIM_NOTE_UNASKED => Note::Unasked,
            sys::SWIM_NOTE_SAVE_FAILED => Note::SaveFailed,
            sys::SWIM_NOTE_EXPELLED => Note::Expelled,
            sys::SWIM_NOTE_STOPPED => Note::Stopped,
            sys::SWIM_NOTE_RECEIVE_FAILED => Note::ReceiveFailed,
            sys::SWIM_NOTE_SEND_FAILED => Note::SendFailed,
            sys::SWIM_NOTE_TIME_OVER => Note::TimeOver,
            sys::SWIM_NOTE_OTHER_VERSION => Note::OtherVersion,
            _ => Note::Unknown(number),
        }
    }

    /// Its number in swim.h.
    pub fn number(self) -> u8 {
        match self {
            Note::BadDatagram => sys::SWIM_NOTE_BAD_DATAGRAM as u8,
            Note::OtherGroup => sys::SWIM_NOTE_OTHER_GROUP as u8,
            Note::NotSender => sys::SWIM_NOTE_NOT_SENDER as u8,
            Note::FromSelf => sys::SWIM_NOTE_FROM_SELF as u8,
            Note::Leap => sys::SWIM_NOTE_LEAP as u8,
            Note::NoNumberLeft => sys::SWIM_NOTE_NO_NUMBER_LEFT as u8,
            Note::TableFull => sys::SWIM_NOTE_TABLE_FULL as u8,
            Note::Misdirected => sys::SWIM_NOTE_MISDIRECTED as u8,
            Note::RelaysFull => sys::SWIM_NOTE_RELAYS_FULL as u8,
            Note::UnknownTarget => sys::SWIM_NOTE_UNKNOWN_TARGET as u8,
            Note::Unasked => sys::SWIM_NOTE_UNASKED as u8,
            Note::SaveFailed => sys::SWIM_NOTE_SAVE_FAILED as u8,
            Note::Expelled => sys::SWIM_NOTE_EXPELLED as u8,
            Note::Stopped => sys::SWIM_NOTE_STOPPED as u8,
            Note::ReceiveFailed => sys::SWIM_NOTE_RECEIVE_FAILED as u8,
            Note::SendFailed => sys::SWIM_NOTE_SEND_FAILED as u8,
            Note::TimeOver => sys::SWIM_NOTE_TIME_OVER as u8,
            Note::OtherVersion => sys::SWIM_NOTE_OTHER_VERSION as u8,
            Note::Unknown(number) => number,
        }
    }
}

/// What is held of a member.
#[derive(Clone, Copy, Debug, PartialEq, Eq, Hash)]
#[non_exhaustive]
pub enum Kind {
    /// `SWIM_ALIVE`.
    Alive,
    /// `SWIM_SUSPECT`.
    Suspect,
    /// `SWIM_CONFIRM`.
    Confirm,
    /// One that this crate does not know: the library is newer.
    Unknown(u8),
}

impl Kind {
    /// The one of this number in swim.h.
    pub fn of(number: u8) -> Kind {
        match c_int::from(number) {
            sys::SWIM_ALIVE => Kind::Alive,
            sys::SWIM_SUSPECT => Kind::Suspect,
            sys::SWIM_CONFIRM => Kind::Confirm,
            _ => Kind::Unknown(number),
        }
    }

    /// Its number in swim.h.
    pub fn number(self) -> u8 {
        match self {
            Kind::Alive => sys::SWIM_ALIVE as u8,
            Kind::Suspect => sys::SWIM_SUSPECT as u8,
            Kind::Confirm => sys::SWIM_CONFIRM as u8,
            Kind::Unknown(number) => number,
        }
    }
}

/// Whether a member takes part.
#[derive(Clone, Copy, Debug, PartialEq, Eq, Hash)]
#[non_exhaustive]
pub enum Phase {
    /// `SWIM_RUNNING`.
    Running,
    /// `SWIM_LEFT`.
    Left,
    /// `SWIM_EXPELLED`.
    Expelled,
    /// One that this crate does not know: the library is newer.
    Unknown(u32),
}

impl Phase {
    /// The one of this number in swim.h.
    pub fn of(number: u32) -> Phase {
        match number as c_int {
            sys::SWIM_RUNNING => Phase::Running,
            sys::SWIM_LEFT => Phase::Left,
            sys::SWIM_EXPELLED => Phase::Expelled,
            _ => Phase::Unknown(number),
        }
    }

    /// Its number in swim.h.
    pub fn number(self) -> u32 {
        match self {
            Phase::Running => sys::SWIM_RUNNING as u32,
            Phase::Left => sys::SWIM_LEFT as u32,
            Phase::Expelled => sys::SWIM_EXPELLED as u32,
            Phase::Unknown(number) => number,
        }
    }
}
