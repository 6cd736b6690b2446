//! The table: one copy's state, and the calls on it.

use crate::answers::{places, records, refused, Attempted, Handled, Logged, ALREADY, DONE, IGNORED, NOT_YET};
use crate::bytes::{mark, marks, word, Image, Out, COLUMNS, IMAGE_BYTES, OUT_BYTES, REPLICAS, SLOT_BYTES};
use crate::contents::{Contents, Status};
use crate::messages::{Config, LogStatus, Message, Place};
use crate::raw;
use crate::refusal::Refusal;
use std::fmt;

/// Where in the image the lengths of the rows, the commit bars and the slots begin.
const LENGTHS: usize = 4;
const BARS: usize = 11;
const SLOTS: usize = 1_810;

/// One copy's table. It owns its image, the bytes of docs/IMAGE.md, on which the core works.
///
/// Two are equal when their images are, byte for byte.
#[derive(Clone, PartialEq, Eq)]
pub struct Table {
    image: Box<Image>,
}

/// A slot as it stands in the table.
#[derive(Clone, Debug, PartialEq, Eq)]
pub struct Slot {
    /// The status.
    pub status: Status,
    /// The peer that a reply goes to, if there is one.
    pub source: Option<u64>,
    /// Whether this copy leads the slot.
    pub led: bool,
    /// The accept marks: which replicas accepted.
    pub marks: [bool; REPLICAS],
    /// The ballot.
    pub ballot: u64,
    /// Sequence, dependencies and batch.
    pub contents: Contents,
}

impl Slot {
    fn read(bytes: &[u8]) -> Option<Slot> {
        Some(Slot {
            status: Status::of(bytes[0])?,
            source: bytes[1].checked_sub(1).map(u64::from),
            led: mark(bytes[2])?,
            marks: marks(&bytes[3..10])?,
            ballot: word(bytes, 10),
            contents: Contents::read(&bytes[18..])?,
        })
    }
}

/// These are not as many bytes as an image has.
#[derive(Clone, Copy, Debug, PartialEq, Eq)]
pub struct WrongLength(
    /// How many there are.
    pub usize,
);

impl fmt::Display for WrongLength {
    fn fmt(&self, f: &mut fmt::Formatter<'_>) -> fmt::Result {
        write!(f, "a table's image has {IMAGE_BYTES} bytes, and these are {}", self.0)
    }
}

impl std::error::Error for WrongLength {}

/// The calls. A refusal leaves the table as it was, byte for byte.
impl Table {
    /// An empty table of this configuration.
    ///
    /// # Errors
    /// Refusal 1.
    pub fn open(config: Config) -> Result<Table, Refusal> {
        let mut image = Box::new([0; IMAGE_BYTES]);
        match raw::open(config, &mut image) {
            DONE => Ok(Table { image }),
            number => Err(refused("nj_open", number)),
        }
    }

    /// Takes a PreAccept: stores it, raised by what this copy knows itself, with one log record of the stored values. Sent
    /// again, it is stored again.
    ///
    /// # Errors
    /// Refusals 1 to 6.
    pub fn pre_accept(&mut self, message: Message, contents: &Contents) -> Result<Handled, Refusal> {
        self.handled("nj_pre_accept", |image, out| raw::pre_accept(image, message, &contents.bytes(), out))
    }

    /// Takes an Accept: stores it as given, with a log record.
    ///
    /// # Errors
    /// Refusals 1 to 6.
    pub fn accept(&mut self, message: Message, contents: &Contents) -> Result<Handled, Refusal> {
        self.handled("nj_accept", |image, out| raw::accept(image, message, &contents.bytes(), out))
    }

    /// Takes a CommitNotice: stores it as given, with a log record; the source is not touched.
    ///
    /// # Errors
    /// Refusals 1 to 6.
    pub fn commit_notice(&mut self, message: Message, contents: &Contents) -> Result<Handled, Refusal> {
        self.handled("nj_commit_notice", |image, out| raw::commit_notice(image, message, &contents.bytes(), out))
    }

    /// Takes an AcceptReply: marks the peer. With at least a simple quorum of marks the slot is Committed, with a log record
    /// and then a CommitNotice to all.
    ///
    /// # Errors
    /// Refusals 1 to 3.
    pub fn accept_reply(&mut self, message: Message) -> Result<Handled, Refusal> {
        self.handled("nj_accept_reply", |image, out| raw::accept_reply(image, message, out))
    }

    /// Takes an ExpPrepare: the peer becomes the source, and is replied with the slot's values. The slot's ballot stays.
    ///
    /// # Errors
    /// Refusals 1 to 3.
    pub fn exp_prepare(&mut self, message: Message) -> Result<Handled, Refusal> {
        self.handled("nj_exp_prepare", |image, out| raw::exp_prepare(image, message, out))
    }

    fn handled(&mut self, function: &str, call: impl FnOnce(&mut Image, &mut Out) -> u64) -> Result<Handled, Refusal> {
        let mut out = [0; OUT_BYTES];
        match call(&mut self.image, &mut out) {
            DONE => Ok(Handled::Done(records(function, &out))),
            IGNORED => Ok(Handled::Ignored),
            number => Err(refused(function, number)),
        }
    }

    /// Leads the slot: marks it led, with no accept marks. It puts out nothing.
    ///
    /// # Errors
    /// Refusals 1 to 3 and 7.
    pub fn lead(&mut self, place: Place) -> Result<(), Refusal> {
        match raw::lead(&mut self.image, place, &mut [0; OUT_BYTES]) {
            DONE => Ok(()),
            number => Err(refused("nj_lead", number)),
        }
    }

    /// Runs the slot and all that it leads to that has not run, or nothing.
    ///
    /// # Errors
    /// Refusals 1 to 3. A slot that is not in the table is not yet to be run, and not refused.
    pub fn attempt(&mut self, place: Place) -> Result<Attempted, Refusal> {
        let (mut order, mut ran) = ([0; REPLICAS * COLUMNS], [0; 8]);
        match raw::attempt(&mut self.image, place, &mut order, &mut ran) {
            DONE => Ok(Attempted::Done(places("nj_attempt", &order, &ran))),
            NOT_YET => Ok(Attempted::NotYet),
            ALREADY => Ok(Attempted::Already),
            number => Err(refused("nj_attempt", number)),
        }
    }

    /// Takes the event that the slot has been logged: the host has written its log record to the disk. PreAccepting and
    /// Accepting: what goes out then is put out. Committed: the row's commit bar may rise, and slots below the bars run.
    ///
    /// # Errors
    /// Refusals 1 to 3 and 7.
    pub fn logged(&mut self, place: Place, status: LogStatus) -> Result<Logged, Refusal> {
        let (mut order, mut ran, mut out) = ([0; REPLICAS * COLUMNS], [0; 8], [0; OUT_BYTES]);
        match raw::logged(&mut self.image, place, status as u64, &mut order, &mut ran, &mut out) {
            DONE => Ok(Logged { ran: places("nj_logged", &order, &ran), records: records("nj_logged", &out) }),
            number => Err(refused("nj_logged", number)),
        }
    }
}

/// Reading.
impl Table {
    /// The table that these bytes are. Only their length is tested here: what stands for nothing, or is out of bounds, is
    /// refused with 1 by each call.
    ///
    /// # Errors
    /// There are not [`IMAGE_BYTES`] of them.
    pub fn from_image(bytes: &[u8]) -> Result<Table, WrongLength> {
        let image = <Box<[u8]>>::from(bytes).try_into().map_err(|_| WrongLength(bytes.len()))?;
        Ok(Table { image })
    }

    /// The image, [`IMAGE_BYTES`] long: to be kept, copied, written to a disk.
    pub fn image(&self) -> &[u8] {
        &self.image[..]
    }

    /// The configuration.
    pub fn config(&self) -> Config {
        let [n, own, simple, sup] = [0, 1, 2, 3].map(|at| u64::from(self.image[at]));
        Config { n, own, simple, sup }
    }

    /// How many slots the row has; 0 of a row that there is not.
    pub fn row_len(&self, row: u64) -> u64 {
        self.of_row(LENGTHS, row)
    }

    /// The row's commit bar; 0 of a row that there is not.
    pub fn bar(&self, row: u64) -> u64 {
        self.of_row(BARS, row)
    }

    fn of_row(&self, at: usize, row: u64) -> u64 {
        let row = usize::try_from(row).ok();
        row.and_then(|row| self.image[at..at + REPLICAS].get(row)).map_or(0, |byte| u64::from(*byte))
    }

    /// The slot there; none where the row has no such column, or its bytes stand for nothing.
    pub fn slot(&self, place: Place) -> Option<Slot> {
        // a spoiled image may say that a row has more than its columns
        if place.column >= self.row_len(place.row).min(COLUMNS as u64) {
            return None;
        }
        let at = SLOTS + SLOT_BYTES * (COLUMNS * place.row as usize + place.column as usize);
        Slot::read(&self.image[at..at + SLOT_BYTES])
    }
}

/// Short: the configuration, and each row's length and commit bar.
impl fmt::Debug for Table {
    fn fmt(&self, f: &mut fmt::Formatter<'_>) -> fmt::Result {
        f.debug_struct("Table")
            .field("config", &self.config())
            .field("lengths", &&self.image[LENGTHS..LENGTHS + REPLICAS])
            .field("bars", &&self.image[BARS..BARS + REPLICAS])
            .finish()
    }
}
