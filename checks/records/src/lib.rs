//! The records of the outside vectors, `sectors.bin`.
//!
//! The file is found by the variable SECTOR_VECTORS, or else where the
//! repository keeps it. A missing file fails the test that asks: a check that
//! was silently left out would look like one that passed.

const HEADER_BYTES: usize = 32;
const RECORD_BYTES: usize = 7052;
const RECORDS: usize = 33;

/// A sector with its address and its parts.
pub struct Record {
    /// 1 mode 1, 2 mode 2 form 1, 3 mode 2 form 2.
    pub kind: u16,
    /// Minute, second and frame.
    pub address: [u16; 3],
    pub absolute_frame: u32,
    pub bcd: Vec<u8>,
    pub mode: u8,
    /// The two copies; zeros in mode 1.
    pub subheaders: [[u8; 4]; 2],
    pub edc: Vec<u8>,
    pub user: Vec<u8>,
    pub clear: Vec<u8>,
    pub scrambled: Vec<u8>,
}

impl Record {
    pub fn is_mode_1(&self) -> bool {
        self.kind == 1
    }

    /// Mode 2 form 1: the parity is that of a header of zeros.
    pub fn is_form_1(&self) -> bool {
        self.kind == 2
    }

    pub fn subheader(&self) -> [u8; 4] {
        self.subheaders[0]
    }

    /// The byte that all user bytes are, where the record is one that a sector line of the bench can make.
    pub fn fill(&self) -> Option<u8> {
        let fill = self.user[0];
        self.user.iter().all(|&byte| byte == fill).then_some(fill)
    }

    /// A buffer to seal: the record's user bytes. Sealing must write every
    /// other byte, so those are spoiled.
    pub fn unsealed(&self) -> Vec<u8> {
        let mut buffer: Vec<u8> = self.clear.iter().map(|byte| !byte).collect();
        let start = if self.is_mode_1() { 16 } else { 24 };
        buffer[start..][..self.user.len()].copy_from_slice(&self.user);
        buffer
    }
}

/// All records of the file.
pub fn read() -> Vec<Record> {
    let kept = concat!(env!("CARGO_MANIFEST_DIR"), "/../../crates/vectors/data/sectors.bin");
    let path = std::env::var("SECTOR_VECTORS").unwrap_or_else(|_| kept.to_string());
    let file = std::fs::read(&path).unwrap_or_else(|error| panic!("{path}: {error} (set SECTOR_VECTORS)"));
    assert_eq!(&file[..8], b"ECMA130V");
    assert_eq!([word(&file, 8), word(&file, 12), word(&file, 16), word(&file, 20)], [1, 33, 7052, 32]);
    assert_eq!(file.len(), HEADER_BYTES + RECORDS * RECORD_BYTES);
    file[HEADER_BYTES..].chunks_exact(RECORD_BYTES).map(record).collect()
}

fn record(bytes: &[u8]) -> Record {
    let user_bytes = u16::from_le_bytes([bytes[6], bytes[7]]) as usize;
    Record {
        kind: bytes[0] as u16,
        address: [from_bcd(bytes[2]), from_bcd(bytes[3]), from_bcd(bytes[4])],
        absolute_frame: word(bytes, 8),
        bcd: bytes[2..5].to_vec(),
        mode: bytes[5],
        subheaders: [&bytes[12..16], &bytes[16..20]].map(|copy| copy.try_into().expect("four bytes")),
        edc: bytes[20..24].to_vec(),
        user: bytes[24..24 + user_bytes].to_vec(),
        clear: bytes[2348..4700].to_vec(),
        scrambled: bytes[4700..7052].to_vec(),
    }
}

fn word(bytes: &[u8], place: usize) -> u32 {
    u32::from_le_bytes(bytes[place..place + 4].try_into().unwrap())
}

fn from_bcd(byte: u8) -> u16 {
    (byte >> 4) as u16 * 10 + (byte & 15) as u16
}
