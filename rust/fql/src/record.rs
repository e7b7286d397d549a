//! Records, of which tables, instances and runs are made: a body length (2 bytes), a kind (2 bytes), the body; least
//! byte first.

/// The kind of a table's first record, whose body is the class name.
pub const CLASS: u16 = 0x0200;
/// The kind of a run's records, each of whose bodies is an instance.
pub const INSTANCE: u16 = 0x0300;
/// The kind of NULL, whose body is empty.
pub const NULL: u16 = 0;
/// What the kind of an array adds to the type of its elements.
pub const ARRAY: u16 = 0x0100;
/// The longest body.
pub const LONGEST_BODY: usize = u16::MAX as usize;

/// A record and where it starts.
#[derive(Clone, Copy, Debug, PartialEq, Eq)]
pub struct Record<'a> {
    /// The offset of its first byte.
    pub start: usize,
    /// In a table the type of a property, in an instance that of a value.
    pub kind: u16,
    /// What stands after length and kind.
    pub body: &'a [u8],
}

/// One record as bytes.
///
/// ```
/// use fql::{record, types};
///
/// assert_eq!(record::write(types::STRING, b"ab"), [2, 0, 6, 0, b'a', b'b']);
/// ```
///
/// # Panics
///
/// If the body is longer than [`LONGEST_BODY`].
pub fn write(kind: u16, body: &[u8]) -> Vec<u8> {
    let length = u16::try_from(body.len()).expect("a body has at most 65,535 bytes");
    [&length.to_le_bytes(), &kind.to_le_bytes(), body].concat()
}

/// The whole records from the start on, and what is left: bytes that are no whole record.
///
/// ```
/// use fql::record::{self, Record};
/// use fql::types;
///
/// let (records, rest) = record::read(&[1, 0, 1, 0, 7, 9, 9]);
/// assert_eq!(records, [Record { start: 0, kind: types::BOOLEAN, body: &[7] }]);
/// assert_eq!(rest, [9, 9]);
/// ```
pub fn read(bytes: &[u8]) -> (Vec<Record<'_>>, &[u8]) {
    let mut records = Vec::new();
    let mut rest = bytes;
    while let Some((record, after)) = first(bytes.len() - rest.len(), rest) {
        records.push(record);
        rest = after;
    }
    (records, rest)
}

fn first(start: usize, bytes: &[u8]) -> Option<(Record<'_>, &[u8])> {
    let ([a, b, c, d], rest) = bytes.split_first_chunk()?;
    let (body, after) = rest.split_at_checked(usize::from(u16::from_le_bytes([*a, *b])))?;
    Some((Record { start, kind: u16::from_le_bytes([*c, *d]), body }, after))
}
