//! The link: a line is a datagram. It loses, repeats and holds back by rate and seed, and carries so many datagrams a tick that no buffer overflows.

use crate::chance::Chance;
use crate::counts::Counts;
use crate::options::Options;
use std::collections::BTreeMap;
use std::io::{self, ErrorKind};
use std::net::UdpSocket;
use std::time::Duration;

pub type Line = [u8; 35];

/// 1,280 a second. A waiting datagram takes up to 1,280 bytes of the receiver's buffer, which has 212,992 on Linux.
const DATAGRAMS_A_TICK: usize = 128;
/// A datagram is held back for up to a second.
const LONGEST_DELAY: u64 = 10;
/// How long a datagram that has been sent is waited for. On 127.0.0.1 it is there at once, unless the machine dropped it.
const PATIENCE: Duration = Duration::from_millis(500);

pub struct Link {
    socket: UdpSocket,
    chance: Chance,
    loss: f64,
    repeat: f64,
    delay: f64,
    now: u64,
    put: u64,
    /// Under the tick at which they leave, in the order in which they were put there.
    waiting: BTreeMap<(u64, u64), Line>,
}

impl Link {
    pub fn open(options: &Options, site: char) -> io::Result<Link> {
        let socket = UdpSocket::bind("127.0.0.1:0")?;
        let chance = Chance::stream(options.seed, site as u64);
        Ok(Link { socket, chance, loss: options.loss, repeat: options.repeat, delay: options.delay, now: 0, put: 0, waiting: BTreeMap::new() })
    }

    pub fn port(&self) -> io::Result<u16> {
        Ok(self.socket.local_addr()?.port())
    }

    /// Only the other site's datagrams are heard from now on.
    pub fn connect(&self, port: u16) -> io::Result<()> {
        self.socket.connect(("127.0.0.1", port))?;
        self.socket.set_read_timeout(Some(PATIENCE))
    }

    /// Puts a line on the link, which may lose it or make it two.
    pub fn put(&mut self, line: Line, counts: &mut Counts) {
        counts.datagrams += 1;
        if self.chance.percent(self.loss) {
            counts.lost += 1;
            return;
        }
        self.wait(line, counts);
        if self.chance.percent(self.repeat) {
            counts.repeated += 1;
            self.wait(line, counts);
        }
    }

    fn wait(&mut self, line: Line, counts: &mut Counts) {
        let mut leaves = self.now;
        if self.chance.percent(self.delay) {
            counts.held_back += 1;
            leaves += self.chance.between(1, LONGEST_DELAY);
        }
        self.put += 1;
        self.waiting.insert((leaves, self.put), line);
    }

    /// Whether more is due than one tick carries.
    pub fn is_busy(&self) -> bool {
        self.waiting.first_key_value().is_some_and(|(&(leaves, _), _)| leaves < self.now)
    }

    pub fn is_empty(&self) -> bool {
        self.waiting.is_empty()
    }

    /// One tick: sends what is due, and tells how many datagrams that were.
    pub fn carry(&mut self) -> io::Result<u64> {
        let due: Vec<(u64, u64)> = self.waiting.range(..(self.now + 1, 0)).map(|(&at, _)| at).take(DATAGRAMS_A_TICK).collect();
        for at in &due {
            if let Some(line) = self.waiting.remove(at) {
                self.socket.send(&line)?;
            }
        }
        self.now += 1;
        Ok(due.len() as u64)
    }

    /// The datagrams that the other site has sent in its tick, and any that come late.
    pub fn take(&mut self, sent: u64, counts: &mut Counts) -> io::Result<Vec<Vec<u8>>> {
        let mut taken = Vec::new();
        while (taken.len() as u64) < sent {
            match self.datagram()? {
                Some(line) => taken.push(line),
                None => break,
            }
        }
        counts.gone += sent - taken.len() as u64;
        self.socket.set_nonblocking(true)?;
        while let Some(line) = self.datagram()? {
            taken.push(line);
        }
        self.socket.set_nonblocking(false)?;
        Ok(taken)
    }

    /// `None` if there is none in time.
    fn datagram(&self) -> io::Result<Option<Vec<u8>>> {
        let mut bytes = [0; 64];
        match self.socket.recv(&mut bytes) {
            Ok(length) => Ok(Some(bytes[..length].to_vec())),
            Err(e) if matches!(e.kind(), ErrorKind::WouldBlock | ErrorKind::TimedOut) => Ok(None),
            Err(e) => Err(e),
        }
    }
}
