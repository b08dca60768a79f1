//! The demonstration's clock, a TCP connection between the two processes: it says when a tick's datagrams have been sent, and hands over the accounts and
//! the calls that are really open, which a host knows from elsewhere. What the table holds never goes this way, but for the comparison at the end.

use std::error::Error;
use std::io::{self, Read, Write};
use std::net::TcpStream;
use std::time::Duration;

/// A site that says nothing for so long is taken for dead.
const PATIENCE: Duration = Duration::from_secs(300);

pub enum Message {
    /// The number of the sender's datagram port.
    Port(u64),
    /// So many datagrams have been sent in this tick.
    Sent(u64),
    /// A site change: the receiver is the primary now.
    Shift(Vec<u64>),
    /// The primary asks what the standby holds, and what it has counted.
    End,
    Entries(Vec<u64>),
    Counts(Vec<u64>),
}

pub struct Control {
    stream: TcpStream,
}

impl Control {
    pub fn over(stream: TcpStream) -> io::Result<Control> {
        stream.set_nodelay(true)?;
        stream.set_read_timeout(Some(PATIENCE))?;
        Ok(Control { stream })
    }

    /// Kind, number of words, words: eight bytes each.
    pub fn say(&mut self, message: &Message) -> io::Result<()> {
        let (kind, words): (u64, &[u64]) = match message {
            Message::Port(port) => (0, &[*port]),
            Message::Sent(sent) => (1, &[*sent]),
            Message::Shift(words) => (2, words),
            Message::End => (3, &[]),
            Message::Entries(words) => (4, words),
            Message::Counts(words) => (5, words),
        };
        let bytes: Vec<u8> = [kind, words.len() as u64].iter().chain(words).flat_map(|word| word.to_le_bytes()).collect();
        self.stream.write_all(&bytes)
    }

    pub fn hear(&mut self) -> Result<Message, Box<dyn Error>> {
        let (kind, length) = (self.word()?, self.word()?);
        let mut bytes = vec![0; 8 * length as usize];
        self.stream.read_exact(&mut bytes)?;
        let words: Vec<u64> = bytes.chunks(8).map(|b| u64::from_le_bytes(b.try_into().expect("eight bytes"))).collect();
        Ok(match kind {
            0 => Message::Port(words[0]),
            1 => Message::Sent(words[0]),
            2 => Message::Shift(words),
            3 => Message::End,
            4 => Message::Entries(words),
            5 => Message::Counts(words),
            other => return Err(format!("a message of kind {other}").into()),
        })
    }

    fn word(&mut self) -> io::Result<u64> {
        let mut bytes = [0; 8];
        self.stream.read_exact(&mut bytes).map_err(|_| io::Error::other("the other site has gone"))?;
        Ok(u64::from_le_bytes(bytes))
    }

    /// The other site's number of datagrams.
    pub fn sent(&mut self) -> Result<u64, Box<dyn Error>> {
        match self.hear()? {
            Message::Sent(sent) => Ok(sent),
            _ => Err("the other site did not end its tick".into()),
        }
    }
}
