//! A member in Rust: `member STATE-FILE GROUP PORT PEER-PORT SECONDS`, on loopback alone, as member.c: also in that only a trial may
//! make a state file where there is none.

use std::error::Error;
use std::net::{Ipv4Addr, SocketAddrV4, UdpSocket};
use std::path::Path;
use std::time::{Duration, Instant};
use swim::{Member, Settings};

type Done = Result<(), Box<dyn Error>>;

fn main() -> Done {
    let words: Vec<String> = std::env::args().collect();
    let (path, group, port, peer, seconds) = match &words[..] {
        [_, path, group, port, peer, seconds] => (Path::new(path), group, port, peer, seconds),
        _ => return Err("member STATE-FILE GROUP PORT PEER-PORT SECONDS".into()),
    };
    let at = |port: u16| SocketAddrV4::new(Ipv4Addr::LOCALHOST, port);
    let peer: u16 = peer.parse()?;
    let settings = Settings::usual(group.parse()?, at(port.parse()?));
    if !path.exists() {
        swim::make(path, &settings)?;
    }
    let udp = UdpSocket::bind(settings.me)?;
    let mut member = Member::open(path, &settings, 1)?;
    let seeds: Vec<_> = (peer != 0).then(|| at(peer)).into_iter().collect();
    member.seeds(&seeds, u64::from(std::process::id()))?;
    let end = Instant::now() + Duration::from_secs(seconds.parse()?);
    member.run(&udp, |_| Instant::now() < end)?;
    for row in member.members()? {
        println!(
            "{} {} {}",
            format!("{:?}", row.kind).to_lowercase(),
            row.who,
            row.number
        );
    }
    member.leave()?; // it ends for good
    Ok(member.send_all(&udp)?)
}
