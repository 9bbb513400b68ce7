//! Reading a file from left to right.

use crate::model::limits::NONE;

/// The first fault met while the records of a file are read.
#[derive(Clone, Copy, PartialEq, Eq, Debug)]
pub enum Fault {
    /// A length disagrees with the content or with the file.
    Length,
    /// A field is out of range.
    Field,
}

/// A place in a file or in one record of it. Nothing past the end is read.
#[derive(Clone)]
pub struct Reader<'a> {
    rest: &'a [u8],
}

impl<'a> Reader<'a> {
    pub fn new(bytes: &'a [u8]) -> Reader<'a> {
        Reader { rest: bytes }
    }

    /// The next `count` bytes. A field that passes the end is a fault of the length.
    pub fn take(&mut self, count: usize) -> Result<&'a [u8], Fault> {
        if count > self.rest.len() {
            return Err(Fault::Length);
        }
        let (taken, rest) = self.rest.split_at(count);
        self.rest = rest;
        Ok(taken)
    }

    pub fn byte(&mut self) -> Result<u8, Fault> {
        Ok(self.take(1)?[0])
    }

    pub fn two_bytes(&mut self) -> Result<u16, Fault> {
        let taken = self.take(2)?;
        Ok(u16::from_be_bytes([taken[0], taken[1]]))
    }

    pub fn four_bytes(&mut self) -> Result<u32, Fault> {
        let taken = self.take(4)?;
        Ok(u32::from_be_bytes([taken[0], taken[1], taken[2], taken[3]]))
    }

    /// A byte that must be less than `count`.
    pub fn byte_below(&mut self, count: usize) -> Result<usize, Fault> {
        let value = usize::from(self.byte()?);
        in_range(value < count)?;
        Ok(value)
    }

    /// A byte less than `count`, or 255 for none.
    pub fn optional_byte_below(&mut self, count: usize) -> Result<Option<usize>, Fault> {
        let value = self.byte()?;
        if value == NONE {
            return Ok(None);
        }
        in_range(usize::from(value) < count)?;
        Ok(Some(usize::from(value)))
    }

    /// A byte that must be 0 or 1.
    pub fn truth(&mut self) -> Result<bool, Fault> {
        Ok(self.byte_below(2)? == 1)
    }

    /// A record with one length byte. The length is wrong at its own bytes if it passes the end.
    pub fn short_record(&mut self) -> Result<Reader<'a>, Fault> {
        let length = self.byte()?;
        Ok(Reader::new(self.take(usize::from(length))?))
    }

    /// A record with two length bytes.
    pub fn long_record(&mut self) -> Result<Reader<'a>, Fault> {
        let length = self.two_bytes()?;
        Ok(Reader::new(self.take(usize::from(length))?))
    }

    /// The end of a record, or of the file after its last record.
    pub fn end(&self) -> Result<(), Fault> {
        if self.rest.is_empty() {
            Ok(())
        } else {
            Err(Fault::Length)
        }
    }
}

/// A field in range, or the fault of one that is not.
pub fn in_range(holds: bool) -> Result<(), Fault> {
    if holds {
        Ok(())
    } else {
        Err(Fault::Field)
    }
}
