//! The records of a stream, one after the other, counted from 1.

use super::mutation::Mutation;
use super::Refusal;
use crate::stream::{Kind, HEAD};

struct Record<'a> {
    kind: Kind,
    data: &'a [u8],
}

/// The bytes that have not been read.
pub struct Records<'a> {
    rest: &'a [u8],
    /// The number of the record that was read last.
    number: u64,
    wrong: Mutation,
}

impl<'a> Records<'a> {
    pub fn new(stream: &'a [u8], wrong: Mutation) -> Records<'a> {
        Records {
            rest: stream,
            number: 0,
            wrong,
        }
    }

    /// The data of the next record, which must be of this kind and have so many bytes of data.
    pub fn expect(&mut self, kind: Kind, length: usize) -> Result<&'a [u8], Refusal> {
        let data = self.expect_name(kind)?;
        let longer = data.len() > length && self.wrong == Mutation::LongerData;
        if data.len() == length || longer {
            Ok(&data[..length])
        } else {
            Err(self.refused(9))
        }
    }

    /// The same with any number of bytes.
    pub fn expect_name(&mut self, kind: Kind) -> Result<&'a [u8], Refusal> {
        let record = self.next()?;
        if self.is(&record, kind) {
            Ok(record.data)
        } else {
            Err(self.refused(9))
        }
    }

    /// Whether the next record is of the first kind; otherwise it must be of the second. Neither
    /// has data.
    pub fn is_first(&mut self, first: Kind, second: Kind) -> Result<bool, Refusal> {
        let record = self.next()?;
        let first = self.is(&record, first);
        if record.data.is_empty() && (first || self.is(&record, second)) {
            Ok(first)
        } else {
            Err(self.refused(9))
        }
    }

    /// Whatever follows the last record must be zero.
    pub fn zeros(&mut self) -> Result<(), Refusal> {
        let zero = self.rest.iter().all(|&byte| byte == 0);
        match self.wrong {
            Mutation::BytesAfterEnd => return Ok(()),
            Mutation::FirstByteAfterEnd if self.rest.first().map_or(true, |&byte| byte == 0) => {
                return Ok(());
            }
            Mutation::EndNamed => {}
            _ => self.number += 1,
        }
        if zero {
            Ok(())
        } else {
            Err(self.refused(9))
        }
    }

    pub fn refused(&self, number: u64) -> Refusal {
        let from_zero = u64::from(self.wrong == Mutation::RecordsFromZero);
        Refusal::new(number, self.number - from_zero)
    }

    fn is(&self, record: &Record, kind: Kind) -> bool {
        let any_data_type = self.wrong == Mutation::DataTypeIgnored;
        record.kind == kind || (any_data_type && record.kind.0 == kind.0)
    }

    fn next(&mut self) -> Result<Record<'a>, Refusal> {
        self.number += 1;
        match self.take() {
            Some(record)
                if self.wrong == Mutation::OptionalSkipped && is_optional(record.kind.0) =>
            {
                self.next()
            }
            None if self.wrong == Mutation::CutNamesLast && self.number > 1 => {
                Err(Refusal::new(9, self.number - 1))
            }
            None => Err(self.refused(9)),
            Some(record) => Ok(record),
        }
    }

    /// Cuts the next record off, if it is there to its end and its length can be one.
    fn take(&mut self) -> Option<Record<'a>> {
        let head = self.rest.get(..HEAD)?;
        let length = usize::from(u16::from_be_bytes([head[0], head[1]]));
        let odd = length % 2 == 1 && self.wrong != Mutation::OddLengths;
        if length < HEAD || odd || length > self.rest.len() {
            return None;
        }
        let (record, rest) = self.rest.split_at(length);
        self.rest = rest;
        Some(Record {
            kind: Kind(head[2], head[3]),
            data: &record[HEAD..],
        })
    }
}

/// Records that the manual allows at some places, and the rules nowhere.
fn is_optional(number: u8) -> bool {
    [0x1F, 0x20, 0x22, 0x23, 0x26, 0x2F, 0x36, 0x37, 0x38, 0x39].contains(&number)
}
