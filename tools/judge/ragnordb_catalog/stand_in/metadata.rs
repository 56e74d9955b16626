//! Names that the original `lib.rs` passes on and uses nowhere else.

pub struct MetadataApplyOutcome;
pub struct MetadataRejection;
pub struct MetadataState;
pub struct MetadataTableCreated;
