//! The datagram: 32 bytes of head, then up to 30 updates of 16 bytes, big-endian.

use super::list::List;

pub const NUMBER_MAX: u64 = 1 << 62;
pub const UPDATES_MAX: usize = 30;
pub const DATAGRAM_MAX: usize = 512;
const HEAD_LEN: usize = 32;
const UPDATE_LEN: usize = 16;

/// A member: an IPv4 address and a port that isn't 0. The zero cursor has port 0.
#[derive(Clone, Copy, Debug, Default, PartialEq, Eq, PartialOrd, Ord)]
pub struct Endpoint {
    pub address: u32,
    pub port: u16,
}

#[derive(Clone, Copy, Debug, Default, PartialEq, Eq)]
pub enum UpdateKind {
    #[default]
    Alive,
    Suspect,
    Confirm,
}

#[derive(Clone, Copy, Debug, Default, PartialEq, Eq)]
pub struct Update {
    pub kind: UpdateKind,
    pub who: Endpoint,
    pub number: u64,
}

#[derive(Clone, Copy, Debug, Default, PartialEq, Eq)]
pub enum Kind {
    #[default]
    Ping,
    PingReq,
    Ack,
    Join,
    Page,
}

/// The rules by which a member lives, which are the version of its datagrams.
#[derive(Clone, Copy, Debug, Default, PartialEq, Eq)]
pub enum Rules {
    #[default]
    One,
    Two,
}

/// Why bytes are no datagram: the first that holds, in this order.
#[derive(Clone, Copy, Debug, PartialEq, Eq)]
pub enum WireFault {
    TooShort,
    TooLong,
    Magic,
    Version,
    Kind,
    Count,
    Reserved,
    Endpoint,
    UpdateKind,
    Number,
}

/// The updates of a datagram.
pub type Updates = List<Update, UPDATES_MAX>;

#[derive(Clone, Copy, Default)]
pub struct Datagram {
    pub version: Rules,
    pub kind: Kind,
    pub group: u64,
    pub seq: u32,
    pub sender: Endpoint,
    pub subject: Endpoint,
    pub updates: Updates,
}

/// The bytes of one datagram.
#[derive(Clone, Copy)]
pub struct Packet {
    bytes: [u8; DATAGRAM_MAX],
    len: usize,
}

impl Packet {
    pub fn as_slice(&self) -> &[u8] {
        &self.bytes[..self.len]
    }
}

fn endpoint(bytes: &[u8]) -> Endpoint {
    Endpoint {
        address: u32::from_be_bytes([bytes[0], bytes[1], bytes[2], bytes[3]]),
        port: u16::from_be_bytes([bytes[4], bytes[5]]),
    }
}

fn number(bytes: &[u8]) -> u64 {
    u64::from_be_bytes([
        bytes[0], bytes[1], bytes[2], bytes[3], bytes[4], bytes[5], bytes[6], bytes[7],
    ])
}

fn rules_of(code: u8) -> Option<Rules> {
    match code {
        1 => Some(Rules::One),
        2 => Some(Rules::Two),
        _ => None,
    }
}

fn kind_of(code: u8) -> Option<Kind> {
    match code {
        1 => Some(Kind::Ping),
        2 => Some(Kind::PingReq),
        3 => Some(Kind::Ack),
        4 => Some(Kind::Join),
        5 => Some(Kind::Page),
        _ => None,
    }
}

/// The version and the kind of a text without one of the faults of the head's first seven bytes and its length.
fn shape(bytes: &[u8]) -> Result<(Rules, Kind), WireFault> {
    if bytes.len() < HEAD_LEN {
        return Err(WireFault::TooShort);
    }
    if bytes.len() > DATAGRAM_MAX {
        return Err(WireFault::TooLong);
    }
    if &bytes[..4] != b"SWIM" {
        return Err(WireFault::Magic);
    }
    let version = rules_of(bytes[4]).ok_or(WireFault::Version)?;
    let kind = kind_of(bytes[5]).ok_or(WireFault::Kind)?;
    if bytes.len() != HEAD_LEN + UPDATE_LEN * usize::from(bytes[6]) {
        return Err(WireFault::Count);
    }
    Ok((version, kind))
}

/// The faults of the fields, in their order, each over all updates.
fn check_fields(kind: Kind, head: &[u8], rest: &[u8]) -> Result<(), WireFault> {
    let parts = rest.chunks_exact(UPDATE_LEN);
    if head[7] != 0 || parts.clone().any(|part| part[1] != 0) {
        return Err(WireFault::Reserved);
    }
    let (sender, subject) = (endpoint(&head[20..26]), endpoint(&head[26..32]));
    let may_be_zero = matches!(kind, Kind::Join | Kind::Page);
    let bad_subject = subject.port == 0 && !(may_be_zero && subject.address == 0);
    if sender.port == 0 || bad_subject || parts.clone().any(|part| endpoint(&part[2..8]).port == 0) {
        return Err(WireFault::Endpoint);
    }
    if parts.clone().any(|part| !matches!(part[0], 1..=3)) {
        return Err(WireFault::UpdateKind);
    }
    if parts.clone().any(|part| number(&part[8..16]) > NUMBER_MAX) {
        return Err(WireFault::Number);
    }
    Ok(())
}

fn read_updates(rest: &[u8]) -> Updates {
    let mut updates = Updates::new();
    for part in rest.chunks_exact(UPDATE_LEN) {
        let kind = match part[0] {
            1 => UpdateKind::Alive,
            2 => UpdateKind::Suspect,
            _ => UpdateKind::Confirm,
        };
        updates.push(Update {
            kind,
            who: endpoint(&part[2..8]),
            number: number(&part[8..16]),
        });
    }
    updates
}

/// The datagram that the bytes spell, or the first fault in the order of `WireFault`.
pub fn decode(bytes: &[u8]) -> Result<Datagram, WireFault> {
    let (version, kind) = shape(bytes)?;
    let (head, rest) = bytes.split_at(HEAD_LEN);
    check_fields(kind, head, rest)?;
    Ok(Datagram {
        version,
        kind,
        group: number(&head[8..16]),
        seq: u32::from_be_bytes([head[16], head[17], head[18], head[19]]),
        sender: endpoint(&head[20..26]),
        subject: endpoint(&head[26..32]),
        updates: read_updates(rest),
    })
}

fn put_endpoint(into: &mut [u8], endpoint: Endpoint) {
    into[..4].copy_from_slice(&endpoint.address.to_be_bytes());
    into[4..6].copy_from_slice(&endpoint.port.to_be_bytes());
}

/// Writes an update over the first 16 bytes.
pub fn put_update(into: &mut [u8], update: &Update) {
    into[0] = match update.kind {
        UpdateKind::Alive => 1,
        UpdateKind::Suspect => 2,
        UpdateKind::Confirm => 3,
    };
    into[1] = 0;
    put_endpoint(&mut into[2..8], update.who);
    into[8..16].copy_from_slice(&update.number.to_be_bytes());
}

fn put_head(head: &mut [u8], datagram: &Datagram) {
    head[..4].copy_from_slice(b"SWIM");
    head[4] = match datagram.version {
        Rules::One => 1,
        Rules::Two => 2,
    };
    head[5] = match datagram.kind {
        Kind::Ping => 1,
        Kind::PingReq => 2,
        Kind::Ack => 3,
        Kind::Join => 4,
        Kind::Page => 5,
    };
    head[6] = datagram.updates.as_slice().len() as u8;
    head[8..16].copy_from_slice(&datagram.group.to_be_bytes());
    head[16..20].copy_from_slice(&datagram.seq.to_be_bytes());
    put_endpoint(&mut head[20..26], datagram.sender);
    put_endpoint(&mut head[26..32], datagram.subject);
}

/// The text that spells the datagram.
pub fn encode(datagram: &Datagram) -> Packet {
    let updates = datagram.updates.as_slice();
    let mut packet = Packet {
        bytes: [0; DATAGRAM_MAX],
        len: HEAD_LEN + UPDATE_LEN * updates.len(),
    };
    let (head, rest) = packet.bytes.split_at_mut(HEAD_LEN);
    put_head(head, datagram);
    for (part, update) in rest.chunks_exact_mut(UPDATE_LEN).zip(updates) {
        put_update(part, update);
    }
    packet
}
