//! A stand-in for ragnordb's crate of that name: the names, variants and fields that the analyzer, the bound types and
//! the catalogue use, and no more.

/// The errors that those three files make. Each carries its message.
#[derive(Debug, Clone, PartialEq, Eq)]
pub enum Error {
    SchemaMismatch(String),
    ConstraintViolation(String),
    UnsupportedSql(String),
    InvalidArgument(String),
    SqlParse(String),
    Configuration(String),
    CorruptData(String),
}

pub type Result<T> = std::result::Result<T, Error>;

pub mod ids {
    #[derive(Debug, Clone, Copy, PartialEq, Eq, PartialOrd, Ord, Hash)]
    pub struct TableId(pub u64);

    #[derive(Debug, Clone, Copy, PartialEq, Eq, PartialOrd, Ord, Hash)]
    pub struct ColumnId(pub u64);
}

pub mod codec {
    #[derive(Debug, Clone, PartialEq)]
    pub enum Value {
        Int(i64),
        Text(String),
        Bool(bool),
        Null,
    }
}

pub mod catalog_codec {
    use crate::ids::ColumnId;

    #[derive(Debug, Clone, Copy, PartialEq, Eq)]
    pub enum DataType {
        Int,
        Text,
        Bool,
    }

    #[derive(Debug, Clone, PartialEq, Eq)]
    pub struct ColumnDefinition {
        pub column_id: ColumnId,
        pub name: String,
        pub ty: DataType,
        pub nullable: bool,
    }

    #[derive(Debug, Clone, PartialEq, Eq)]
    pub struct TableDefinition {
        pub table_id: u64,
        pub name: String,
        pub columns: Vec<ColumnDefinition>,
        pub primary_key_column_ids: Vec<ColumnId>,
        pub schema_version: u64,
        pub tablet_count: u32,
    }
}
