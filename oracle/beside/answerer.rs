//! The program that calls the C functions, at the other end of two pipes.
use crate::bytes::{self, Answer, BEHIND, IMAGE, Request, WORD};
use std::io::{BufReader, Read, Write};
use std::process::{Child, ChildStdin, ChildStdout, Command, Stdio};

pub struct Answerer {
    child: Child,
    to: ChildStdin,
    from: BufReader<ChildStdout>,
}

impl Answerer {
    pub fn start(program: &str) -> Result<Self, String> {
        let start = Command::new(program).stdin(Stdio::piped()).stdout(Stdio::piped()).spawn();
        let mut child = start.map_err(|e| format!("cannot start {program}: {e}"))?;
        let (to, from) = (child.stdin.take(), child.stdout.take());
        let (Some(to), Some(from)) = (to, from) else { return Err(format!("{program} has no pipes")) };
        Ok(Answerer { child, to, from: BufReader::new(from) })
    }

    /// Hands over a frame of requests. The program reads all of it before it answers, so that neither end waits for the
    /// other.
    pub fn ask<'a>(&mut self, requests: impl IntoIterator<Item = &'a Request>) -> Result<(), String> {
        let mut frame = vec![0; 4];
        requests.into_iter().for_each(|r| r.put(&mut frame));
        let length = (frame.len() - 4) as u32;
        frame[..4].copy_from_slice(&length.to_le_bytes());
        self.to.write_all(&frame).map_err(|e| self.ended(&e))
    }

    /// The answer to the next request of the frame, with the bytes that are watched.
    pub fn answer(&mut self, request: &Request) -> Result<Answer, String> {
        let code = bytes::word(&self.next(WORD)?, 0);
        let out = self.next(request.out + BEHIND)?;
        let (ran, order) = match request.list() {
            Some(list) => (self.next(request.ran + BEHIND)?, self.next(list.len() + BEHIND)?),
            None => (vec![], vec![]),
        };
        let image = if request.function.takes_table() { self.next(IMAGE + BEHIND)? } else { vec![] };
        Ok(Answer { code, out, ran, order, image })
    }

    fn next(&mut self, count: usize) -> Result<Vec<u8>, String> {
        let mut bytes = vec![0; count];
        self.from.read_exact(&mut bytes).map_err(|e| self.ended(&e))?;
        Ok(bytes)
    }

    fn ended(&mut self, why: &std::io::Error) -> String {
        let status = self.child.try_wait().ok().flatten().map_or("is running".into(), |s| s.to_string());
        format!("the program that calls the C functions {status}: {why}")
    }
}
