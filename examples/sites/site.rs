//! What each of the two processes has: a table, its end of the link, and what it has counted.

use crate::control::{Control, Message};
use crate::counts::Counts;
use crate::ksk::{Block, Entry, Refusal};
use crate::link::Link;
use crate::options::Options;
use std::error::Error;
use std::net::TcpStream;

/// Nodes of a table. At the primary three versions of some 1,100 entries each stand in it, which share what they have in common.
pub const NODES: u32 = 4096;
/// The open calls: edited by the ledger at the primary, by lines at the standby.
pub const OPEN: u32 = 0;
/// The copy that is on its way.
pub const COPY: u32 = 1;
/// The copy that the standby has.
pub const SENT: u32 = 2;
/// Stays empty: a listing against it is the whole version.
const EMPTY: u32 = 15;

pub struct Site {
    pub name: char,
    pub options: Options,
    pub block: Block,
    pub link: Link,
    pub control: Control,
    pub counts: Counts,
}

impl Site {
    /// The two ends tell each other their ports.
    pub fn open(name: char, options: &Options, stream: TcpStream) -> Result<Site, Box<dyn Error>> {
        let link = Link::open(options, name)?;
        let mut control = Control::over(stream)?;
        control.say(&Message::Port(link.port()? as u64))?;
        let Message::Port(port) = control.hear()? else { return Err("the other site did not say its port".into()) };
        link.connect(port as u16)?;
        Ok(Site { name, options: options.clone(), block: Block::fresh(NODES)?, link, control, counts: Counts::default() })
    }

    pub fn entries(&self) -> Result<Vec<Entry>, Refusal> {
        self.block.list(OPEN, EMPTY)
    }
}
