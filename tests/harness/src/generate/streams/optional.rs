//! Records of the manual that the rules do not allow.

use crate::random::Random;
use crate::stream::{Kind, Record};

/// Type, data type and how many bytes of data.
const OPTIONAL: [(u8, u8, usize); 26] = [
    (0x1F, 0x06, 90),  // REFLIBS
    (0x20, 0x06, 176), // FONTS
    (0x22, 0x02, 2),   // GENERATIONS
    (0x23, 0x06, 44),  // ATTRTABLE
    (0x36, 0x02, 2),   // FORMAT
    (0x37, 0x06, 4),   // MASK
    (0x38, 0x00, 0),   // ENDMASKS
    (0x39, 0x02, 2),   // LIBDIRSIZE
    (0x3A, 0x06, 4),   // SRFNAME
    (0x3B, 0x02, 2),   // LIBSECUR
    (0x34, 0x01, 2),   // STRCLASS
    (0x26, 0x01, 2),   // ELFLAGS
    (0x2F, 0x03, 4),   // PLEX
    (0x09, 0x00, 0),   // PATH
    (0x0A, 0x00, 0),   // SREF
    (0x0B, 0x00, 0),   // AREF
    (0x0C, 0x00, 0),   // TEXT
    (0x15, 0x00, 0),   // NODE
    (0x2D, 0x00, 0),   // BOX
    (0x0F, 0x03, 4),   // WIDTH
    (0x21, 0x02, 2),   // PATHTYPE
    (0x2E, 0x02, 2),   // BOXTYPE
    (0x12, 0x06, 4),   // SNAME
    (0x1A, 0x01, 2),   // STRANS
    (0x2A, 0x02, 2),   // NODETYPE
    (0x14, 0x00, 0),   // TEXTNODE
];

pub fn optional() -> Vec<Record> {
    let record = |(number, data_type, size)| Record::new(Kind(number, data_type), &vec![0; size]);
    OPTIONAL.map(record).to_vec()
}

pub fn any_optional(random: &mut Random) -> Record {
    let all = optional();
    all[random.index(all.len())].clone()
}
