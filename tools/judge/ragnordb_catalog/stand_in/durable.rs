//! Names that the original `lib.rs` passes on and uses nowhere else.

pub struct CatalogCreateOutcome;
pub struct CatalogLogExtent;
pub struct CatalogLogRecord;
pub struct DurableCatalog;
pub struct DurableCatalogLog;
