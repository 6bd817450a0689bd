//! A member of a SWIM group, by polling, over the proved library libswim. `docs/develop/EMBEDDING.md` says how time, random words and the
//! state file are to be fed.
//!
//! After each event [`Member::next_datagram`] has to be asked until it gives none: the next event is refused until then. Ticks that
//! are late are skipped and never made up. [`Member::run`] is a whole member over UDP, and the example `member` runs one.
//!
//! ```
//! use swim::{Code, Kind, Member, Settings, DATAGRAM_MAX};
//!
//! # fn main() -> Result<(), swim::Fault> {
//! let settings = Settings::usual(7, "127.0.0.1:7000".parse().unwrap());
//! let mut member = Member::open_memory(&settings, 1)?;
//! member.join("127.0.0.1:7001".parse().unwrap())?;
//! assert_eq!(member.tick(1).unwrap_err().code, Code::Waiting);
//! let mut buffer = [0; DATAGRAM_MAX];
//! while let Some((to, bytes)) = member.next_datagram(&mut buffer)? {
//!     assert_eq!((to.port(), bytes.len()), (7001, 48)); // send them there
//! }
//! member.tick(1)?;
//! assert_eq!(member.members()?[0].kind, Kind::Alive);
//! # Ok(())
//! # }
//! ```
#![warn(missing_docs)]

#[rustfmt::skip]
mod made;
mod run;

use std::ffi::{CStr, CString};
use std::net::{Ipv4Addr, SocketAddrV4};
use std::os::raw::c_int;
use std::os::unix::ffi::OsStrExt;
use std::os::unix::io::{AsFd, AsRawFd};
use std::path::Path;
use std::time::Instant;
use std::{error, fmt, io, ptr};
use swim_sys as sys;

pub use made::{Code, Kind, Note, Phase};
pub use swim_sys::{SWIM_DATAGRAM_MAX as DATAGRAM_MAX, SWIM_SEEDS_MAX as SEEDS_MAX};

/// Why a call did nothing.
#[derive(Debug)]
#[non_exhaustive]
pub struct Fault {
    /// The code of swim.h.
    pub code: Code,
    /// What the system said, where it refused something. It is the `source` too.
    pub errno: Option<io::Error>,
}

impl Fault {
    /// Of a call that has just answered so.
    fn of(number: c_int) -> Fault {
        let said = io::Error::last_os_error();
        let code = Code::of(number);
        let has_errno = matches!(
            code,
            Code::File | Code::OpenDevice | Code::MakeDevice | Code::KeepDevice
        );
        Fault {
            code,
            errno: has_errno.then_some(said),
        }
    }
}

impl fmt::Display for Fault {
    fn fmt(&self, f: &mut fmt::Formatter<'_>) -> fmt::Result {
        // SAFETY: the text is static.
        let text = unsafe { CStr::from_ptr(sys::swim_text(self.code.number())) };
        f.write_str(&text.to_string_lossy())
    }
}

impl error::Error for Fault {
    fn source(&self) -> Option<&(dyn error::Error + 'static)> {
        self.errno.as_ref().map(|error| error as _)
    }
}

/// So that `?` takes it in a function of [`io::Result`]. The kind is that of what the system said, and else says of which kind the code
/// is; the fault is inside.
impl From<Fault> for io::Error {
    fn from(fault: Fault) -> io::Error {
        let kind = match (&fault.errno, fault.code) {
            (Some(error), _) => error.kind(),
            (None, Code::NoMemory | Code::OpenNoMemory) => io::ErrorKind::OutOfMemory,
            (None, Code::OpenNotState | Code::OpenNoSlot | Code::OpenDamaged) => io::ErrorKind::InvalidData,
            (None, code) if code.is_of_settings() => io::ErrorKind::InvalidInput,
            (None, _) => io::ErrorKind::Other,
        };
        io::Error::new(kind, fault)
    }
}

impl Code {
    /// Whether a setting is refused.
    fn is_of_settings(self) -> bool {
        let settings = sys::SWIM_BAD_LAMBDA..=sys::SWIM_BAD_RESERVED;
        settings.contains(&self.number()) || matches!(self, Code::NoEndpoint | Code::OpenLimit)
    }
}

impl fmt::Display for Note {
    fn fmt(&self, f: &mut fmt::Formatter<'_>) -> fmt::Result {
        // SAFETY: the name is static.
        let name = unsafe { CStr::from_ptr(sys::swim_note_name(self.number().into())) };
        f.write_str(&name.to_string_lossy())
    }
}

fn done(code: c_int) -> Result<(), Fault> {
    match code {
        sys::SWIM_OK => Ok(()),
        code => Err(Fault::of(code)),
    }
}

/// What a member is told at its start; swim.h has the ranges. Begin it with [`Settings::usual`] or [`Settings::lan`].
#[derive(Clone, Copy, Debug, PartialEq, Eq)]
pub struct Settings {
    /// The group's number.
    pub group: u64,
    /// The own address and port, as the others see it.
    pub me: SocketAddrV4,
    /// Ticks from one probe to the next.
    pub period: u64,
    /// Ticks that a direct answer may take before helpers are asked.
    pub direct: u64,
    /// Ticks after which a Suspect becomes Confirm.
    pub suspect: u64,
    /// Ticks after which a Confirm is forgotten.
    pub forget: u64,
    /// Own incarnations that one save of the state file reserves.
    pub block: u64,
    /// How often an update is sent, times the binary digits of the count of members.
    pub lambda: u32,
    /// How many others are asked about a silent target.
    pub helpers: u32,
    /// By which rules the group lives.
    pub rules: u32,
    /// Milliseconds in a tick of [`Member::advance`], where 0 stands for 100.
    pub tick_ms: u16,
}

impl Settings {
    /// The defaults of `swim run`, by rules 2.
    pub fn usual(group: u64, me: SocketAddrV4) -> Settings {
        Settings::of(&sys::SWIM_USUAL_SETTINGS, group, me)
    }

    /// Those of a group that `swim up` made: the preset `lan`, with ticks of 50 ms, and rules 2.
    pub fn lan(group: u64, me: SocketAddrV4) -> Settings {
        Settings::of(&sys::SWIM_LAN_SETTINGS, group, me)
    }

    fn of(given: &sys::swim_settings, group: u64, me: SocketAddrV4) -> Settings {
        Settings {
            group,
            me,
            period: given.period,
            direct: given.direct,
            suspect: given.suspect,
            forget: given.forget,
            block: given.block,
            lambda: given.lambda,
            helpers: given.helpers,
            rules: given.rules,
            tick_ms: given.tick_ms,
        }
    }

    fn to_c(self) -> sys::swim_settings {
        let me = to_c(self.me);
        sys::swim_settings {
            group: self.group,
            period: self.period,
            direct: self.direct,
            suspect: self.suspect,
            forget: self.forget,
            block: self.block,
            address: me.address,
            lambda: self.lambda,
            helpers: self.helpers,
            rules: self.rules,
            port: me.port,
            tick_ms: self.tick_ms,
            ..sys::SWIM_USUAL_SETTINGS
        }
    }
}

/// A member that is known.
#[derive(Clone, Copy, Debug, PartialEq, Eq)]
pub struct Row {
    /// What is held of it.
    pub kind: Kind,
    /// Its address and port.
    pub who: SocketAddrV4,
    /// Its incarnation.
    pub number: u64,
}

impl Row {
    /// The row that C wrote, if it is one.
    fn of(row: &sys::swim_row) -> Option<Row> {
        (row.kind != 0).then(|| Row {
            kind: Kind::of(row.kind),
            who: from_c(row.address, row.port),
            number: row.number,
        })
    }
}

/// How what is held of a member changed: `None` where there was no row, or is none any more.
#[derive(Clone, Copy, Debug, PartialEq, Eq)]
pub struct Change {
    /// What is held of it now.
    pub now: Option<Row>,
    /// What was told of it before.
    pub was: Option<Row>,
}

/// What a status page shows. `first` is the incarnation with which this life began.
#[derive(Clone, Copy, Debug, PartialEq, Eq)]
pub struct Status {
    /// Whether the member takes part.
    pub phase: Phase,
    /// The own incarnation.
    pub number: u64,
    /// The incarnation with which this life began.
    pub first: u64,
    /// Other members that are held for alive.
    pub alive: u64,
    /// Those that are suspected.
    pub suspect: u64,
    /// Those that failed or left, and are not forgotten yet.
    pub confirmed: u64,
}

// What the library writes over.

const NOWHERE: sys::swim_endpoint = sys::swim_endpoint { address: 0, port: 0 };

const NO_ROW: sys::swim_row = sys::swim_row {
    number: 0,
    address: 0,
    port: 0,
    kind: 0,
    reserved: [0; 17],
};

const NO_STATUS: sys::swim_status = sys::swim_status {
    number: 0,
    first: 0,
    alive: 0,
    suspect: 0,
    confirmed: 0,
    phase: 0,
    reserved: [0; 52],
};

fn to_c(at: SocketAddrV4) -> sys::swim_endpoint {
    sys::swim_endpoint {
        address: u32::from(*at.ip()),
        port: at.port(),
    }
}

fn from_c(address: u32, port: u16) -> SocketAddrV4 {
    SocketAddrV4::new(Ipv4Addr::from(address), port)
}

fn path_to_c(path: &Path) -> Result<CString, Fault> {
    CString::new(path.as_os_str().as_bytes()).map_err(|error| Fault {
        code: Code::File,
        errno: Some(error.into()),
    })
}

/// Makes the state file of a member at a path where nothing is, whole or not at all.
pub fn make(path: impl AsRef<Path>, settings: &Settings) -> Result<(), Fault> {
    let path = path_to_c(path.as_ref())?;
    // SAFETY: path and settings live through the call.
    done(unsafe { sys::swim_make(path.as_ptr(), &settings.to_c()) })
}

/// Makes it in an empty file, which is open for reading and writing, without O_APPEND. Its folder is the caller's to sync.
pub fn make_state(file: impl AsFd, settings: &Settings) -> Result<(), Fault> {
    // SAFETY: file and settings live through the call.
    done(unsafe { sys::swim_make_state(file.as_fd().as_raw_fd(), &settings.to_c()) })
}

/// A member. It is one thread's at a time: `Send`, and not `Sync`. Dropping it closes it, and sends nothing.
///
/// ```compile_fail
/// fn is_shared<T: Sync>() {}
/// is_shared::<swim::Member>();
/// ```
pub struct Member {
    handle: sys::swim_member,
    /// Where the clock of [`Member::run`] begins.
    opened: Instant,
}

// SAFETY: a handle may go to another thread where that is ordered, as a move is; all its calls take `&mut self`.
unsafe impl Send for Member {}

impl Member {
    fn open_by(open: impl FnOnce(*mut sys::swim_member) -> c_int) -> Result<Member, Fault> {
        let mut member = Member {
            handle: sys::swim_member {
                inside: sys::swim_inside {
                    mark: 0,
                    at: ptr::null_mut(),
                },
                busy: 0,
                forks: 0,
                tick_ms: 0,
                reserved: 0,
            },
            opened: Instant::now(),
        };
        done(open(&mut member.handle))?;
        Ok(member)
    }

    /// Opens a member on its state file. An era has so many entries; 1 is enough.
    pub fn open(path: impl AsRef<Path>, settings: &Settings, limit: u32) -> Result<Member, Fault> {
        let path = path_to_c(path.as_ref())?;
        // SAFETY: all three live through the call.
        Member::open_by(|handle| unsafe { sys::swim_open(handle, path.as_ptr(), &settings.to_c(), limit) })
    }

    /// Opens one on a file that is open for reading and writing, without O_APPEND. It is not locked: two members on one file are the
    /// caller's to rule out.
    pub fn open_descriptor(file: impl AsFd, settings: &Settings, limit: u32) -> Result<Member, Fault> {
        let fd = file.as_fd().as_raw_fd();
        // SAFETY: all three live through the call.
        Member::open_by(|handle| unsafe { sys::swim_open_descriptor(handle, fd, &settings.to_c(), limit) })
    }

    /// For tests: a member on a new state file in memory.
    pub fn open_memory(settings: &Settings, limit: u32) -> Result<Member, Fault> {
        // SAFETY: both live through the call.
        Member::open_by(|handle| unsafe { sys::swim_open_memory(handle, &settings.to_c(), limit) })
    }

    // SAFETY of each call below: the handle is this member's alone, and what is passed lives through the call.

    /// Time goes on by one tick, with 64 random bits. Late ticks are never made up.
    pub fn tick(&mut self, random: u64) -> Result<(), Fault> {
        done(unsafe { sys::swim_tick(&mut self.handle, random) })
    }

    /// Makes one tick if one is due by the program's clock, in milliseconds, joins whom the seeds call for, and answers when to call
    /// again. Late ticks are skipped. Use this or [`Member::tick`], and not both.
    pub fn advance(&mut self, now_ms: u64, random: u64) -> Result<u64, Fault> {
        let mut next = 0;
        done(unsafe { sys::swim_advance(&mut self.handle, now_ms, random, &mut next) })?;
        Ok(next)
    }

    /// Bytes came from there. No datagram, whatever it is, makes this fail; one from port 0 is left aside.
    pub fn receive(&mut self, from: SocketAddrV4, bytes: &[u8]) -> Result<(), Fault> {
        done(unsafe { sys::swim_receive(&mut self.handle, to_c(from), bytes.as_ptr(), bytes.len()) })
    }

    /// A receive failed.
    pub fn receive_failed(&mut self) -> Result<(), Fault> {
        done(unsafe { sys::swim_receive_failed(&mut self.handle) })
    }

    /// So many datagrams were not sent.
    pub fn send_failed(&mut self, count: u32) -> Result<(), Fault> {
        done(unsafe { sys::swim_send_failed(&mut self.handle, count) })
    }

    /// Whom the program knows of its group: [`Member::advance`] joins them, and those that the state file stored, from now on. The
    /// random bits draw others; the first call's count.
    pub fn seeds(&mut self, seeds: &[SocketAddrV4], random: u64) -> Result<(), Fault> {
        let seeds: Vec<_> = seeds.iter().copied().map(to_c).collect();
        done(unsafe { sys::swim_seeds(&mut self.handle, seeds.as_ptr(), seeds.len(), random) })
    }

    /// Asks a member of the group for all that it knows, once.
    pub fn join(&mut self, peer: SocketAddrV4) -> Result<(), Fault> {
        done(unsafe { sys::swim_join(&mut self.handle, to_c(peer)) })
    }

    /// Leaves the group: the datagrams that wait then tell it.
    pub fn leave(&mut self) -> Result<(), Fault> {
        done(unsafe { sys::swim_leave(&mut self.handle) })
    }

    /// The next datagram that waits, if one does: where it goes, and its bytes in the buffer.
    pub fn next_datagram<'a>(
        &mut self,
        buffer: &'a mut [u8; DATAGRAM_MAX],
    ) -> Result<Option<(SocketAddrV4, &'a [u8])>, Fault> {
        let (mut to, mut length) = (NOWHERE, 0);
        let code = unsafe {
            sys::swim_next_datagram(
                &mut self.handle,
                &mut to,
                buffer.as_mut_ptr(),
                DATAGRAM_MAX,
                &mut length,
            )
        };
        if code == sys::SWIM_NOTHING {
            return Ok(None);
        }
        done(code)?;
        Ok(Some((from_c(to.address, to.port), &buffer[..length])))
    }

    /// The members that are known, the own one among them, by address and port.
    pub fn members(&mut self) -> Result<Vec<Row>, Fault> {
        let (mut rows, mut count) = ([NO_ROW; sys::SWIM_MEMBERS_MAX], 0);
        done(unsafe { sys::swim_members(&self.handle, rows.as_mut_ptr(), rows.len(), &mut count) })?;
        Ok(rows[..count].iter().filter_map(Row::of).collect())
    }

    /// The next change of what is held of a member, if there is one; after the opening all members are new. Ask until it gives none.
    pub fn next_change(&mut self) -> Result<Option<Change>, Fault> {
        let (mut now, mut was) = (NO_ROW, NO_ROW);
        let code = unsafe { sys::swim_next_change(&mut self.handle, &mut now, &mut was) };
        if code == sys::SWIM_NOTHING {
            return Ok(None);
        }
        done(code)?;
        Ok(Some(Change {
            now: Row::of(&now),
            was: Row::of(&was),
        }))
    }

    /// What a status page shows.
    pub fn status(&mut self) -> Result<Status, Fault> {
        let mut status = NO_STATUS;
        done(unsafe { sys::swim_get_status(&self.handle, &mut status) })?;
        Ok(Status {
            phase: Phase::of(status.phase),
            number: status.number,
            first: status.first,
            alive: status.alive,
            suspect: status.suspect,
            confirmed: status.confirmed,
        })
    }

    /// What the last event took note of.
    pub fn notes(&mut self) -> Result<Vec<Note>, Fault> {
        let (mut notes, mut count) = ([0; sys::SWIM_NOTES_MAX], 0);
        done(unsafe { sys::swim_notes(&self.handle, notes.as_mut_ptr(), &mut count) })?;
        Ok(notes[..count].iter().map(|&note| Note::of(note)).collect())
    }

    /// Whom an earlier life knew.
    pub fn stored_peers(&mut self) -> Result<Vec<SocketAddrV4>, Fault> {
        let (mut peers, mut count) = ([NOWHERE; sys::SWIM_PEERS_MAX], 0);
        done(unsafe { sys::swim_stored_peers(&self.handle, peers.as_mut_ptr(), &mut count) })?;
        Ok(peers[..count]
            .iter()
            .map(|peer| from_c(peer.address, peer.port))
            .collect())
    }

    /// Saves whom the member knows in the state file.
    pub fn keep_peers(&mut self) -> Result<(), Fault> {
        done(unsafe { sys::swim_keep_peers(&mut self.handle) })
    }
}

impl fmt::Debug for Member {
    fn fmt(&self, f: &mut fmt::Formatter<'_>) -> fmt::Result {
        f.debug_struct("Member").finish_non_exhaustive()
    }
}

impl Drop for Member {
    fn drop(&mut self) {
        // SAFETY: the handle is this member's alone; a closed one is refused.
        unsafe { sys::swim_close(&mut self.handle) };
    }
}
