//! A whole member over UDP, by threads and sockets of std.

use crate::{Fault, Member, DATAGRAM_MAX};
use std::collections::hash_map::RandomState;
use std::hash::{BuildHasher, Hasher};
use std::io::{self, ErrorKind};
use std::net::{SocketAddr, UdpSocket};
use std::time::{Duration, Instant};

/// That a tick may be late for what waits at the socket: it is read first, but not for ever.
const LATE: Duration = Duration::from_millis(100);

/// A word that std draws from the system's randomness. It guards no secret.
fn random_word() -> u64 {
    RandomState::new().build_hasher().finish()
}

impl Member {
    /// Sends all that waits, and notes how many datagrams the system refused.
    pub fn send_all(&mut self, udp: &UdpSocket) -> Result<(), Fault> {
        let (mut buffer, mut lost) = ([0; DATAGRAM_MAX], 0);
        while let Some((to, bytes)) = self.next_datagram(&mut buffer)? {
            lost += u32::from(udp.send_to(bytes, to).is_err());
        }
        if lost > 0 {
            self.send_failed(lost)?;
        }
        Ok(())
    }

    /// Runs the member over a socket that is bound to its endpoint, until `goes_on` says no: what comes is handed in, ticks are made by
    /// the clock, and what waits is sent. `goes_on` is asked before each tick, and may call the member, for example for its changes.
    /// [`Member::seeds`] has to be told before whom to join.
    ///
    /// At the end whom the member knows is saved. It does not leave, since most programs end to be started again; one that ends for
    /// good calls [`Member::leave`] and then [`Member::send_all`]. Use this or [`Member::advance`], and not both. The socket's mode and
    /// its waiting time are changed.
    ///
    /// An error is a call of the member that did nothing, with its [`Fault`] inside, or one of setting the socket.
    pub fn run(&mut self, udp: &UdpSocket, mut goes_on: impl FnMut(&mut Member) -> bool) -> io::Result<()> {
        while goes_on(self) {
            self.send_all(udp)?;
            let due = self.advance(self.opened.elapsed().as_millis() as u64, random_word())?;
            self.send_all(udp)?;
            self.receive_until(udp, self.opened + Duration::from_millis(due))?;
        }
        Ok(self.keep_peers()?)
    }

    /// Hands in what waits at the socket, and what comes until then.
    fn receive_until(&mut self, udp: &UdpSocket, until: Instant) -> io::Result<()> {
        let mut bytes = [0; DATAGRAM_MAX + 1];
        while Instant::now() <= until + LATE {
            let left = until.saturating_duration_since(Instant::now());
            udp.set_nonblocking(left.is_zero())?;
            if !left.is_zero() {
                udp.set_read_timeout(Some(left))?;
            }
            match udp.recv_from(&mut bytes) {
                Ok((length, SocketAddr::V4(from))) => self.receive(from, &bytes[..length])?,
                Ok(_) => {}
                Err(error) if matches!(error.kind(), ErrorKind::WouldBlock | ErrorKind::TimedOut) => break,
                Err(error) if error.kind() == ErrorKind::Interrupted => {}
                Err(_) => self.receive_failed()?,
            }
            self.send_all(udp)?;
        }
        Ok(())
    }
}
