//! The bytes of a trace.
use crate::plain::{Config, Event, Kind, Place, Request, Status, Store};
use crate::refusals;

/// A refusal's number: 11 of a trace that is too long, 9 where it ends, 10 where a byte is wrong, 1 where the configuration
/// is.
pub type Refusal = u8;

pub const LONGEST: usize = 65_536;

pub struct Reader<'a> {
    trace: &'a [u8],
    at: usize,
}

impl<'a> Reader<'a> {
    pub fn new(trace: &'a [u8]) -> Self {
        Reader { trace, at: 0 }
    }

    pub fn is_at_end(&self) -> bool {
        self.at == self.trace.len()
    }

    /// Groups of seven bits, low group first, in the shortest form.
    fn number(&mut self) -> Result<u64, Refusal> {
        let mut value = 0;
        for group in 0..10 {
            let byte = *self.trace.get(self.at).ok_or(9)?;
            self.at += 1;
            if group == 9 && byte > 1 {
                return Err(10);
            }
            value |= u64::from(byte & 0x7f) << (7 * group);
            if byte & 0x80 == 0 {
                return if byte == 0 && group > 0 { Err(10) } else { Ok(value) };
            }
        }
        Err(10)
    }

    pub fn config(&mut self) -> Result<Config, Refusal> {
        if self.trace.len() > LONGEST {
            return Err(11);
        }
        let numbers = [self.number()?, self.number()?, self.number()?, self.number()?];
        refusals::config(numbers).ok_or(1)
    }

    fn place(&mut self) -> Result<Place, Refusal> {
        Ok(Place { row: self.number()?, col: self.number()? })
    }

    fn request(&mut self) -> Result<Request, Refusal> {
        let (client, id) = (self.number()?, self.number()?);
        let kind = match self.number()? {
            0 => Kind::Other,
            1 => Kind::Put { key: self.number()?, value: self.number()? },
            2 => Kind::Get { key: self.number()? },
            _ => return Err(10),
        };
        Ok(Request { client, id, kind })
    }

    fn store(&mut self, what: Store, n: usize) -> Result<Event, Refusal> {
        let (peer, at, ballot, seq) = (self.number()?, self.place()?, self.number()?, self.number()?);
        let deps = (0..n).map(|_| self.number()).collect::<Result<_, _>>()?;
        let count = self.number()?;
        if count > 4 {
            return Err(10);
        }
        let batch = (0..count).map(|_| self.request()).collect::<Result<_, _>>()?;
        Ok(Event::Store { what, peer, at, ballot, seq, deps, batch })
    }

    pub fn event(&mut self, n: usize) -> Result<Event, Refusal> {
        match self.number()? {
            1 => self.store(Store::PreAccept, n),
            2 => self.store(Store::Accept, n),
            3 => self.store(Store::CommitNotice, n),
            4 => Ok(Event::AcceptReply { peer: self.number()?, at: self.place()?, ballot: self.number()? }),
            5 => Ok(Event::ExpPrepare { peer: self.number()?, at: self.place()?, ballot: self.number()? }),
            6 => {
                let (at, status) = (self.place()?, self.number()?);
                Status::logged(status).map(|_| Event::Logged { at, status }).ok_or(10)
            }
            7 => Ok(Event::Attempt { at: self.place()? }),
            8 => Ok(Event::Lead { at: self.place()? }),
            _ => Err(10),
        }
    }
}
