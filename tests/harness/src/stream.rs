//! A GDSII stream as records. The generators also make streams that the rules refuse.

/// The type and the data type of a record.
#[derive(Clone, Copy, Debug, PartialEq, Eq)]
pub struct Kind(pub u8, pub u8);

pub const HEADER: Kind = Kind(0x00, 0x02);
pub const BGNLIB: Kind = Kind(0x01, 0x02);
pub const LIBNAME: Kind = Kind(0x02, 0x06);
pub const UNITS: Kind = Kind(0x03, 0x05);
pub const ENDLIB: Kind = Kind(0x04, 0x00);
pub const BGNSTR: Kind = Kind(0x05, 0x02);
pub const STRNAME: Kind = Kind(0x06, 0x06);
pub const ENDSTR: Kind = Kind(0x07, 0x00);
pub const BOUNDARY: Kind = Kind(0x08, 0x00);
pub const LAYER: Kind = Kind(0x0D, 0x02);
pub const DATATYPE: Kind = Kind(0x0E, 0x02);
pub const XY: Kind = Kind(0x10, 0x03);
pub const ENDEL: Kind = Kind(0x11, 0x00);
pub const PROPATTR: Kind = Kind(0x2B, 0x02);
pub const PROPVALUE: Kind = Kind(0x2C, 0x06);

/// How many records stand before the first element, and how many an element has.
pub const BEFORE_ELEMENTS: usize = 6;
pub const IN_ELEMENT: usize = 7;

/// The bytes before the data of a record.
pub const HEAD: usize = 4;

#[derive(Clone, Debug, PartialEq, Eq)]
pub struct Record {
    pub kind: Kind,
    pub data: Vec<u8>,
    /// The length that is stated, if it is not the true one.
    pub stated: Option<u16>,
}

impl Record {
    pub fn new(kind: Kind, data: &[u8]) -> Record {
        Record {
            kind,
            data: data.to_vec(),
            stated: None,
        }
    }

    fn bytes(&self) -> Vec<u8> {
        let length = self.stated.unwrap_or((HEAD + self.data.len()) as u16);
        let mut bytes = length.to_be_bytes().to_vec();
        bytes.extend([self.kind.0, self.kind.1]);
        bytes.extend(&self.data);
        bytes
    }
}

#[derive(Clone, Debug, PartialEq, Eq)]
pub struct Stream {
    pub records: Vec<Record>,
    /// What follows the last record.
    pub after: Vec<u8>,
}

impl Stream {
    pub fn bytes(&self) -> Vec<u8> {
        let mut bytes: Vec<u8> = self.records.iter().flat_map(Record::bytes).collect();
        bytes.extend(&self.after);
        bytes
    }

    /// The places of the records of one kind.
    pub fn all(&self, kind: Kind) -> Vec<usize> {
        let places = 0..self.records.len();
        places.filter(|&at| self.records[at].kind == kind).collect()
    }
}

/// The bytes of each record as far as the stated lengths lead, and then of what is left.
pub fn split(mut bytes: &[u8]) -> Vec<&[u8]> {
    let mut records = Vec::new();
    while let [high, low, _, _, ..] = *bytes {
        let length = usize::from(u16::from_be_bytes([high, low]));
        if length < HEAD || length > bytes.len() {
            break;
        }
        let (record, rest) = bytes.split_at(length);
        records.push(record);
        bytes = rest;
    }
    if !bytes.is_empty() {
        records.push(bytes);
    }
    records
}
