//! Integers of each type, by the language's own of that width and sign (02, Q-2).

use crate::kind::{SINT16, SINT32, SINT64, SINT8, UINT16, UINT32, UINT64, UINT8};

/// The whole number in a body, if the type is an integer of that length.
pub fn read(kind: u16, body: &[u8]) -> Option<i128> {
    Some(match kind {
        UINT8 => u8::from_le_bytes(body.try_into().ok()?).into(),
        UINT16 => u16::from_le_bytes(body.try_into().ok()?).into(),
        UINT32 => u32::from_le_bytes(body.try_into().ok()?).into(),
        UINT64 => u64::from_le_bytes(body.try_into().ok()?).into(),
        SINT8 => i8::from_le_bytes(body.try_into().ok()?).into(),
        SINT16 => i16::from_le_bytes(body.try_into().ok()?).into(),
        SINT32 => i32::from_le_bytes(body.try_into().ok()?).into(),
        SINT64 => i64::from_le_bytes(body.try_into().ok()?).into(),
        _ => return None,
    })
}

/// The body of a whole number, if the type is an integer that holds it.
pub fn write(kind: u16, n: i128) -> Option<Vec<u8>> {
    Some(match kind {
        UINT8 => u8::try_from(n).ok()?.to_le_bytes().to_vec(),
        UINT16 => u16::try_from(n).ok()?.to_le_bytes().to_vec(),
        UINT32 => u32::try_from(n).ok()?.to_le_bytes().to_vec(),
        UINT64 => u64::try_from(n).ok()?.to_le_bytes().to_vec(),
        SINT8 => i8::try_from(n).ok()?.to_le_bytes().to_vec(),
        SINT16 => i16::try_from(n).ok()?.to_le_bytes().to_vec(),
        SINT32 => i32::try_from(n).ok()?.to_le_bytes().to_vec(),
        SINT64 => i64::try_from(n).ok()?.to_le_bytes().to_vec(),
        _ => return None,
    })
}

/// The lowest and the highest number of an integer type.
pub fn range(kind: u16) -> (i128, i128) {
    match kind {
        UINT8 => (0, u8::MAX.into()),
        UINT16 => (0, u16::MAX.into()),
        UINT32 => (0, u32::MAX.into()),
        UINT64 => (0, u64::MAX.into()),
        SINT8 => (i8::MIN.into(), i8::MAX.into()),
        SINT16 => (i16::MIN.into(), i16::MAX.into()),
        SINT32 => (i32::MIN.into(), i32::MAX.into()),
        SINT64 => (i64::MIN.into(), i64::MAX.into()),
        other => panic!("{other:#06x} is no integer"),
    }
}
