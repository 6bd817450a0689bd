//! What the crate adds to libswim: codes with their errno, types, threads. tests/embedded tries the library itself.

use std::error::Error;
use std::fs::OpenOptions;
use std::io::{self, ErrorKind};
use std::net::{Ipv4Addr, SocketAddr, SocketAddrV4, UdpSocket};
use std::time::{Duration, Instant};
use swim::{Code, Fault, Kind, Member, Note, Phase, Settings, DATAGRAM_MAX, SEEDS_MAX};

fn at(port: u16) -> SocketAddrV4 {
    SocketAddrV4::new(Ipv4Addr::LOCALHOST, port)
}

fn member() -> Member {
    Member::open_memory(&Settings::usual(7, at(7000)), 1).expect("a member in memory")
}

#[test]
fn a_fault_has_its_code_and_what_the_system_said() {
    let settings = Settings::usual(7, at(7000));
    let path = std::env::temp_dir().join(format!("swim-{}.state", std::process::id()));
    let fault = Member::open(&path, &settings, 1).unwrap_err();
    assert_eq!(fault.code, Code::File);
    assert_eq!(
        fault.errno.as_ref().map(|error| error.kind()),
        Some(ErrorKind::NotFound)
    );
    assert!(fault.source().is_some());
    swim::make(&path, &settings).expect("it is made");
    let fault = swim::make(&path, &settings).unwrap_err();
    assert_eq!(
        fault.errno.map(|error| error.kind()),
        Some(ErrorKind::AlreadyExists)
    );
    let open = Member::open(&path, &settings, 1).expect("it opens");
    let fault = Member::open(&path, &settings, 1).unwrap_err();
    assert_eq!((fault.code, fault.errno.is_none()), (Code::Locked, true));
    drop(open);
    std::fs::remove_file(&path).expect("it is there");
}

#[test]
fn a_fault_is_an_error_of_io() {
    fn open(path: &str, settings: &Settings) -> io::Result<Member> {
        Ok(Member::open(path, settings, 1)?)
    }
    let usual = Settings::usual(7, at(7000));
    let error = open("/no/folder/member.state", &usual).unwrap_err();
    assert_eq!(error.kind(), ErrorKind::NotFound);
    let fault = error.get_ref().and_then(|inside| inside.downcast_ref::<Fault>());
    assert_eq!(fault.map(|fault| fault.code), Some(Code::File));
    let error = open("/no/folder/member.state", &Settings { period: 1, ..usual }).unwrap_err();
    assert_eq!(error.kind(), ErrorKind::InvalidInput); // settings are judged before the file
    let mut member = member();
    member.join(at(7001)).expect("it asks");
    let error = io::Error::from(member.tick(1).unwrap_err());
    assert_eq!(error.kind(), ErrorKind::Other);
}

/// Two members on sockets of their own, each of which runs until both know each other, and then leaves if it is to.
#[test]
fn a_member_runs_over_udp_and_leaves_only_if_told() {
    let bound = || UdpSocket::bind(at(0)).expect("a free port");
    let here = |udp: &UdpSocket| match udp.local_addr() {
        Ok(SocketAddr::V4(me)) => me,
        other => panic!("{:?}", other),
    };
    let (one, other) = (bound(), bound());
    let (seed, end) = (here(&one), Instant::now() + Duration::from_secs(30));
    let met =
        move |member: &mut Member| member.status().expect("a status").alive == 1 || Instant::now() > end;
    let runs = std::thread::spawn(move || {
        let mut member = Member::open_memory(&Settings::lan(7, here(&one)), 1).expect("it opens");
        member.run(&one, |member| !met(member)).expect("it runs");
        assert_eq!(member.status().expect("a status").phase, Phase::Running);
        // the other one leaves, and this one is told
        member
            .run(&one, |member| {
                member.status().expect("a status").confirmed == 0 && Instant::now() < end
            })
            .expect("it goes on");
        member.status().expect("a status").confirmed
    });
    let mut member = Member::open_memory(&Settings::lan(7, here(&other)), 1).expect("it opens");
    member.seeds(&[seed], 1).expect("one seed");
    member.run(&other, |member| !met(member)).expect("it runs");
    assert_eq!(member.status().expect("a status").alive, 1);
    assert_eq!(member.status().expect("a status").phase, Phase::Running);
    std::thread::sleep(Duration::from_millis(300)); // the first one has met it, too
    member.leave().expect("it leaves");
    member.send_all(&other).expect("it tells");
    assert_eq!(runs.join().expect("no panic"), 1);
}

#[test]
fn a_file_that_is_open_takes_a_member() {
    let settings = Settings::usual(7, at(7000));
    let path = std::env::temp_dir().join(format!("swim-open-{}.state", std::process::id()));
    let mut flags = OpenOptions::new();
    let file = flags
        .read(true)
        .write(true)
        .create_new(true)
        .open(&path)
        .expect("it is new");
    swim::make_state(&file, &settings).expect("it is made");
    let mut member = Member::open_descriptor(&file, &settings, 1).expect("it opens");
    drop(file); // the member has its own
    assert_eq!(member.status().expect("a status").first, 1);
    let added = OpenOptions::new()
        .read(true)
        .append(true)
        .open(&path)
        .expect("it is there");
    let fault = Member::open_descriptor(&added, &settings, 1).unwrap_err();
    assert_eq!(fault.code, Code::BadDescriptor);
    std::fs::remove_file(&path).expect("it is there");
}

#[test]
fn no_member_is_reached_at_some_addresses() {
    for address in [
        Ipv4Addr::UNSPECIFIED,
        Ipv4Addr::BROADCAST,
        Ipv4Addr::new(224, 0, 0, 1),
    ] {
        let settings = Settings::usual(7, SocketAddrV4::new(address, 7000));
        assert_eq!(
            Member::open_memory(&settings, 1).unwrap_err().code,
            Code::BadAddress
        );
    }
}

#[test]
fn datagrams_wait_until_they_are_taken() {
    let (mut member, mut buffer) = (member(), [0; DATAGRAM_MAX]);
    member.join(at(7001)).expect("it asks");
    assert_eq!(member.tick(1).unwrap_err().code, Code::Waiting);
    let (to, bytes) = member
        .next_datagram(&mut buffer)
        .expect("it hands out")
        .expect("one waits");
    assert_eq!((to, bytes.len()), (at(7001), 48));
    assert!(member.next_datagram(&mut buffer).expect("it answers").is_none());
    member.tick(1).expect("time goes on");
}

#[test]
fn notes_have_names_and_port_0_is_left_aside() {
    let mut member = member();
    member.receive(at(0), b"x").expect("no datagram is an error");
    assert_eq!(member.notes().expect("notes"), []);
    member.receive(at(7001), b"x").expect("no datagram is an error");
    assert_eq!(member.notes().expect("notes"), [Note::BadDatagram]);
    assert_eq!(Note::BadDatagram.to_string(), "BadDatagram");
}

#[test]
fn a_member_goes_to_another_thread() {
    let mut member = member();
    let rows = std::thread::spawn(move || member.members())
        .join()
        .expect("no panic")
        .expect("rows");
    assert_eq!(
        (rows[0].kind, rows[0].who, rows[0].number),
        (Kind::Alive, at(7000), 1)
    );
}

#[test]
fn late_ticks_are_skipped() {
    let mut member = member();
    let next = [5000, 5050, 5100, 60000].map(|now| member.advance(now, 1).expect("time goes on"));
    assert_eq!(next, [5100, 5100, 5200, 60100]);
    let mut member = Member::open_memory(&Settings::lan(7, at(7000)), 1).expect("a member in memory");
    let next = [5000, 5025, 5050, 60000].map(|now| member.advance(now, 1).expect("time goes on"));
    assert_eq!(next, [5050, 5050, 5100, 60050]);
}

#[test]
fn seeds_are_asked_again_by_the_clock() {
    let (mut member, mut buffer) = (member(), [0; DATAGRAM_MAX]);
    member.seeds(&[at(7001)], 1).expect("one seed");
    let asked = [1000, 1050, 1100, 1200, 1300].map(|now| {
        member.advance(now, 1).expect("time goes on");
        let next = member.next_datagram(&mut buffer).expect("it answers");
        next.map(|(to, _)| to)
    });
    let peer = Some(at(7001));
    assert_eq!(asked, [peer, None, peer, None, peer]);
    let many = [at(7001); SEEDS_MAX + 1];
    assert_eq!(member.seeds(&many, 1).unwrap_err().code, Code::TooMany);
}

#[test]
fn changes_are_told_once() {
    let mut member = member();
    let change = member.next_change().expect("it answers").expect("itself is new");
    assert_eq!(
        (change.now, change.was),
        (Some(member.members().expect("rows")[0]), None)
    );
    assert_eq!(member.next_change().expect("it answers"), None);
}

#[test]
fn a_status_is_of_types() {
    let mut member = member();
    let status = member.status().expect("a status");
    assert_eq!(
        (status.phase, status.number, status.first),
        (Phase::Running, 1, 1)
    );
    member.leave().expect("it leaves");
    assert_eq!(member.status().expect("a status").phase, Phase::Left);
    assert!(!format!("{:?}", member).is_empty());
}
