//! Records one after the other as the lines of a text give them, and at their end perhaps bytes that are none.

use fql::record::{self, LONGEST_BODY};

use crate::hex;
use crate::line::Line;
use crate::problem::Problem;

#[derive(Default)]
pub struct Records {
    pub bytes: Vec<u8>,
    pub count: usize,
    ended: bool,
}

impl Records {
    /// A record may follow unless `bytes` came before.
    pub fn expect_open(&self, line: &Line) -> Result<(), Problem> {
        match self.ended {
            false => Ok(()),
            true => Err(line.problem_of_line("nothing can follow the line with `bytes` here".to_owned())),
        }
    }

    pub fn push(&mut self, record: &[u8]) {
        self.bytes.extend(record);
        self.count += 1;
    }

    /// `record 0x0118 0A0B`, after its first word.
    pub fn raw_record(&mut self, mut line: Line) -> Result<(), Problem> {
        self.expect_open(&line)?;
        let kind = hex::read_number(&mut line, 4)? as u16;
        let start = line.offset();
        let body = hex::read(&mut line)?;
        line.expect_end()?;
        expect_short(body.len()).map_err(|what| line.problem_at(start, what))?;
        self.push(&record::write(kind, &body));
        Ok(())
    }

    /// `bytes 0A0B`, after its first word.
    pub fn raw_bytes(&mut self, mut line: Line) -> Result<(), Problem> {
        self.expect_open(&line)?;
        self.bytes.extend(hex::read(&mut line)?);
        self.ended = true;
        line.expect_end()
    }
}

/// Whether a body fits into a record.
pub fn expect_short(length: usize) -> Result<(), String> {
    match length {
        0..=LONGEST_BODY => Ok(()),
        _ => Err(format!("this has {length} bytes, and a record holds {LONGEST_BODY}")),
    }
}
