//! Converts the original's errors to document 01's refusals.

use vrf_bitio::BitError;
use vrf_schema::SchemaError;

use crate::answer::Refusal;

impl From<BitError> for Refusal {
    fn from(error: BitError) -> Self {
        match error {
            BitError::Eof {
                position,
                requested,
                ..
            } => Refusal::new(10, position, requested),
            BitError::MalformedIntPacked { position } => Refusal::new(11, position, 0),
            BitError::IntPackedOverflow { position } => Refusal::new(12, position, 0),
            // The length was read from 32 bits, and is shown as those bits.
            BitError::InvalidLength { position, length } => {
                Refusal::new(13, position, u64::from(length as u32))
            }
            BitError::InvalidString { position } => Refusal::new(14, position, 0),
            BitError::InvalidBitLength {
                requested,
                available,
            } => Refusal::new(15, requested, available),
            BitError::InvalidSerializedIntMax { .. } => {
                unreachable!("no call reads serialized ints")
            }
        }
    }
}

impl From<SchemaError> for Refusal {
    fn from(error: SchemaError) -> Self {
        let refusal = |number, a: u32, b: u32| Refusal::new(number, u64::from(a), u64::from(b));
        match error {
            SchemaError::Bitio(error) => error.into(),
            SchemaError::UnknownPathIndex { index } => refusal(20, index, 0),
            SchemaError::BadExportedFlag {
                path_name_index,
                value,
            } => refusal(21, path_name_index, value),
            SchemaError::FieldCountOverflow { count, .. } => refusal(22, count, 0),
            SchemaError::CrossedExportGroupIdentity {
                path_name_index, ..
            } => refusal(23, path_name_index, 0),
            // The size was read from 32 bits, and is shown as those bits.
            SchemaError::NegativePayloadSize { size } => refusal(24, size as u32, 0),
            SchemaError::TrailingPayloadData { remaining } => Refusal::new(25, remaining as u64, 0),
            SchemaError::RecursionLimitExceeded { limit } => refusal(26, limit, 0),
            other => of_block(other),
        }
    }
}

fn of_block(error: SchemaError) -> Refusal {
    let refusal = |number, a: u32, b: u32| Refusal::new(number, u64::from(a), u64::from(b));
    match error {
        SchemaError::CheckpointReservedWordSet { offset, value } => {
            Refusal::new(30, offset as u64, u64::from(value))
        }
        SchemaError::CheckpointCountOverflow { field, count, .. } => {
            refusal(31, which_count(field), count)
        }
        SchemaError::CheckpointBadPathKind { entry, byte } => refusal(32, entry, byte.into()),
        SchemaError::CheckpointPathIndexOutOfBounds { entry, index, .. } => {
            refusal(33, entry, index)
        }
        SchemaError::CheckpointGroupCollision {
            path_name_index, ..
        } => refusal(34, path_name_index, 0),
        SchemaError::CheckpointHandleNotSlot { slot, handle, .. } => refusal(35, slot, handle),
        SchemaError::CheckpointFrameOffsetMismatch { map_end, expected } => {
            Refusal::new(36, map_end as u64, expected as u64)
        }
        other => unreachable!("{other:?} is no error of a block"),
    }
}

/// The original names the count by a text, document 01 by a number.
fn which_count(field: &str) -> u32 {
    match field {
        "guid entries" => 1,
        "export groups" => 2,
        "fields in a group" => 3,
        other => unreachable!("no count is called {other}"),
    }
}
