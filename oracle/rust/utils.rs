//! Stand-ins for the Rust's utilities, and the lines that it tells while it works.
use std::cell::RefCell;

thread_local! {
    static TOLD: RefCell<Option<Vec<String>>> = const { RefCell::new(None) };
}

/// Keeps a line where somebody listens. What the Rust tells is the one place where its call of its own reply
/// handler can be seen.
pub fn told(line: impl FnOnce() -> String) {
    TOLD.with_borrow_mut(|lines| {
        if let Some(lines) = lines {
            lines.push(line());
        }
    });
}

/// What was told while `work` ran, beside its result.
pub fn listen<T>(work: impl FnOnce() -> T) -> (T, Vec<String>) {
    TOLD.set(Some(Vec::new()));
    let result = work();
    (result, TOLD.take().unwrap_or_default())
}

#[derive(Debug, Clone, PartialEq, Eq)]
pub struct SummersetError(pub String);

impl From<std::num::TryFromIntError> for SummersetError {
    fn from(e: std::num::TryFromIntError) -> Self {
        SummersetError(e.to_string())
    }
}

/// A set of replica numbers below a size.
#[derive(Debug, Clone, PartialEq, Eq)]
pub struct Bitmap {
    pub size: u8,
    pub bits: u64,
}

impl Bitmap {
    pub fn new(size: u8) -> Self {
        Bitmap { size, bits: 0 }
    }

    fn within(&self, replica: u8) -> Result<(), SummersetError> {
        if replica < self.size { Ok(()) } else { Err(SummersetError(format!("replica {replica} of {}", self.size))) }
    }

    pub fn get(&self, replica: u8) -> Result<bool, SummersetError> {
        self.within(replica)?;
        Ok(self.bits >> replica & 1 == 1)
    }

    pub fn set(&mut self, replica: u8, flag: bool) -> Result<(), SummersetError> {
        self.within(replica)?;
        self.bits = self.bits & !(1 << replica) | u64::from(flag) << replica;
        Ok(())
    }

    pub fn count(&self) -> u8 {
        self.bits.count_ones() as u8
    }
}

/// A heartbeat timer: only whether it has gone off.
#[derive(Debug, Clone)]
pub struct Timer(pub bool);

impl Timer {
    pub fn exploded(&self) -> bool {
        self.0
    }
}
