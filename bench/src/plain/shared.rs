//! A member behind a lock, whose status is read without that lock, and a bounded queue of datagrams.

use super::member::{Member, Settings};
use super::wire::{DATAGRAM_MAX, Endpoint, Packet, encode};
use crate::scene::{Deal, GROUP, HELPERS, ME, OTHERS, PORT, RULES, deal};
use std::hint::black_box;
use std::sync::atomic::{AtomicBool, Ordering};
use std::sync::mpsc::{Receiver, SyncSender, TryRecvError, TrySendError, sync_channel};
use std::sync::{Mutex, PoisonError, RwLock};
use std::thread;
use std::time::{Duration, Instant};

/// The places of the queue.
const PLACES: usize = 256;

/// What is told of a member.
#[derive(Clone, Copy, Default)]
struct Status {
    number: u64,
    eligible: usize,
    length: usize,
}

/// One call.
struct Entry {
    caller: u32,
    turn: u32,
    deal: Deal,
    sent: Vec<(Endpoint, Packet)>,
    status: Status,
}

/// A member with the calls that it answered.
struct Node {
    member: Member,
    journal: Vec<Entry>,
}

impl Node {
    fn new() -> Node {
        let settings = Settings {
            group: GROUP,
            me: Endpoint {
                address: ME,
                port: PORT,
            },
            lambda: 3,
            period: 10,
            direct: 3,
            suspect: 50,
            forget: 6000,
            helpers: HELPERS,
            rules: RULES,
        };
        Node {
            member: Member::new(settings, 1),
            journal: Vec::new(),
        }
    }

    fn tick(&mut self, caller: u32, turn: u32, deal: Deal) -> Status {
        let mut sent = Vec::new();
        self.member
            .tick(&deal, |to, datagram| sent.push((to, encode(datagram))));
        let status = Status {
            number: self.member.number(),
            eligible: self.member.eligible_count(),
            length: self.journal.len() + 1,
        };
        self.journal.push(Entry {
            caller,
            turn,
            deal,
            sent,
            status,
        });
        status
    }

    /// A number that stands for the whole journal, so that none of it is left out.
    fn sum(&self) -> u64 {
        let parts = self.journal.iter().map(|entry| {
            let status = entry.status;
            let counts = status.eligible + status.length + entry.sent.len();
            let first = u32::from(entry.deal[0]);
            u64::from(entry.caller ^ entry.turn ^ first) + status.number + counts as u64
        });
        parts.sum()
    }
}

/// A node behind a lock, and its status behind another one.
struct Shared {
    node: Mutex<Node>,
    status: RwLock<Status>,
}

impl Shared {
    fn new() -> Shared {
        Shared {
            node: Mutex::new(Node::new()),
            status: RwLock::default(),
        }
    }

    fn call(&self, caller: u32, turn: u32, deal: Deal) -> Status {
        let mut node = self.node.lock().unwrap_or_else(PoisonError::into_inner);
        let status = node.tick(caller, turn, deal);
        *self.status.write().unwrap_or_else(PoisonError::into_inner) = status;
        status
    }

    fn read(&self) -> Status {
        *self.status.read().unwrap_or_else(PoisonError::into_inner)
    }

    fn read_all(&self, count: u32) {
        for _ in 0..count {
            black_box(self.read());
        }
    }
}

/// Runs the work on so many threads, and gives the time.
fn on_threads(threads: u32, work: impl Fn(u32) + Sync) -> Duration {
    let start = Instant::now();
    thread::scope(|scope| {
        for number in 1..threads {
            let work = &work;
            scope.spawn(move || work(number));
        }
        work(0);
    });
    start.elapsed()
}

/// The time of so many ticks of one thread, without a lock.
pub fn applied(_threads: u32, count: u32) -> Duration {
    let mut node = Node::new();
    let start = Instant::now();
    let deal = deal();
    for turn in 0..count {
        black_box(node.tick(0, turn + 1, black_box(deal)));
    }
    let took = start.elapsed();
    black_box(node.sum());
    took
}

/// The time of so many ticks of each thread.
pub fn called(threads: u32, count: u32) -> Duration {
    let shared = Shared::new();
    let took = on_threads(threads, |caller| {
        let deal = deal();
        for turn in 0..count {
            black_box(shared.call(caller, turn + 1, black_box(deal)));
        }
    });
    let node = shared.node.lock().unwrap_or_else(PoisonError::into_inner);
    black_box(node.sum());
    took
}

/// The time of so many reads of each thread.
pub fn read(threads: u32, count: u32) -> Duration {
    let shared = Shared::new();
    on_threads(threads, |_| shared.read_all(count))
}

/// The same while one more thread makes calls.
pub fn read_beside_calls(threads: u32, count: u32) -> Duration {
    let shared = Shared::new();
    let is_over = AtomicBool::new(false);
    thread::scope(|scope| {
        scope.spawn(|| {
            let deal = deal();
            let mut turn = 0_u32;
            while !is_over.load(Ordering::SeqCst) {
                black_box(shared.call(0, turn, black_box(deal)));
                turn = turn.wrapping_add(1);
            }
        });
        let took = on_threads(threads, |_| shared.read_all(count));
        is_over.store(true, Ordering::SeqCst);
        took
    })
}

/// The same while one more thread has the lock.
pub fn read_beside_save(threads: u32, count: u32) -> Duration {
    let shared = Shared::new();
    let is_over = AtomicBool::new(false);
    thread::scope(|scope| {
        scope.spawn(|| {
            let node = shared.node.lock().unwrap_or_else(PoisonError::into_inner);
            while !is_over.load(Ordering::SeqCst) {
                thread::yield_now();
            }
            black_box(node.sum());
        });
        let took = on_threads(threads, |_| shared.read_all(count));
        is_over.store(true, Ordering::SeqCst);
        took
    })
}

/// A datagram of the queue.
struct Queued {
    to: Endpoint,
    bytes: [u8; DATAGRAM_MAX],
    len: usize,
}

fn put_all(queue: &SyncSender<Queued>, to: Endpoint, count: u32) {
    let bytes = [1; DATAGRAM_MAX];
    for _ in 0..count {
        let mut next = Queued {
            to,
            bytes: *black_box(&bytes),
            len: DATAGRAM_MAX,
        };
        while let Err(TrySendError::Full(back)) = queue.try_send(next) {
            next = back;
            thread::yield_now();
        }
    }
}

fn take_all(queue: &Receiver<Queued>, count: u32) -> u64 {
    let mut sum = 0;
    while sum < u64::from(count) {
        match queue.try_recv() {
            Ok(next) => {
                let bytes = black_box(&next.bytes[..next.len]);
                black_box(next.to);
                sum += u64::from(bytes[0]);
            }
            Err(TryRecvError::Empty) => thread::yield_now(),
            Err(TryRecvError::Disconnected) => break,
        }
    }
    sum
}

/// The time of so many datagrams from one thread to another.
pub fn queued(_threads: u32, count: u32) -> Duration {
    let (sender, receiver) = sync_channel(PLACES);
    let to = Endpoint {
        address: OTHERS,
        port: PORT,
    };
    let start = Instant::now();
    thread::scope(|scope| {
        scope.spawn(move || put_all(&sender, to, count));
        assert_eq!(take_all(&receiver, count), u64::from(count));
    });
    start.elapsed()
}
