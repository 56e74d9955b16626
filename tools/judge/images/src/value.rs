//! Types, operators and values, which rows and bound statements share.

use crate::bytes::{Read, Reader};

#[derive(Debug, Clone, Copy, PartialEq, Eq, PartialOrd, Ord)]
pub enum ColumnType {
    Int,
    Text,
    Bool,
}

#[derive(Debug, Clone, Copy, PartialEq, Eq, PartialOrd, Ord)]
pub enum ExpressionType {
    Int,
    Text,
    Bool,
    Null,
}

const TYPE_NAMES: [&str; 4] = ["INT", "TEXT", "BOOL", "NULL"];

impl ColumnType {
    pub const ALL: [ColumnType; 3] = [ColumnType::Int, ColumnType::Text, ColumnType::Bool];

    pub fn code(self) -> u8 {
        self as u8
    }

    pub fn name(self) -> &'static str {
        TYPE_NAMES[self as usize]
    }

    pub fn read(reader: &mut Reader) -> Read<Self> {
        Ok(Self::ALL[reader.code("type", &TYPE_NAMES[..3])?])
    }
}

impl ExpressionType {
    pub const ALL: [ExpressionType; 4] =
        [ExpressionType::Int, ExpressionType::Text, ExpressionType::Bool, ExpressionType::Null];

    pub fn code(self) -> u8 {
        self as u8
    }

    pub fn name(self) -> &'static str {
        TYPE_NAMES[self as usize]
    }
}

/// The 13 binary operators, in the order of `BoundBinaryOperator`.
#[derive(Debug, Clone, Copy, PartialEq, Eq, PartialOrd, Ord)]
pub enum Operator {
    Add,
    Subtract,
    Multiply,
    Divide,
    Modulo,
    Equal,
    NotEqual,
    Greater,
    GreaterOrEqual,
    Less,
    LessOrEqual,
    And,
    Or,
}

impl Operator {
    pub const ALL: [Operator; 13] = [
        Operator::Add,
        Operator::Subtract,
        Operator::Multiply,
        Operator::Divide,
        Operator::Modulo,
        Operator::Equal,
        Operator::NotEqual,
        Operator::Greater,
        Operator::GreaterOrEqual,
        Operator::Less,
        Operator::LessOrEqual,
        Operator::And,
        Operator::Or,
    ];

    pub fn code(self) -> u8 {
        self as u8
    }

    pub fn sign(self) -> &'static str {
        ["+", "-", "*", "/", "%", "=", "<>", ">", ">=", "<", "<=", "AND", "OR"][self as usize]
    }
}

#[derive(Debug, Clone, PartialEq, Eq)]
pub enum Value {
    Int(i64),
    Text(String),
    Bool(bool),
    Null,
}

impl Value {
    pub fn encode(&self) -> Vec<u8> {
        match self {
            Value::Int(number) => [&[0][..], &number.to_le_bytes()].concat(),
            Value::Text(text) => [&[1][..], text.as_bytes()].concat(),
            Value::Bool(value) => vec![2, u8::from(*value)],
            Value::Null => vec![3],
        }
    }

    /// A value that fills its part.
    pub fn decode(mut reader: Reader) -> Read<Self> {
        let value = match reader.code("type", &TYPE_NAMES)? {
            0 => Value::Int(reader.signed("value")?),
            1 => Value::Text(reader.text("value")?),
            2 => Value::Bool(reader.code("value", &["FALSE", "TRUE"])? == 1),
            _ => Value::Null,
        };
        reader.finish("value")?;
        Ok(value)
    }

    /// The value as SQL writes it.
    pub fn to_sql(&self) -> String {
        match self {
            Value::Int(number) => number.to_string(),
            Value::Text(text) => format!("'{}'", text.replace('\'', "''")),
            Value::Bool(true) => "TRUE".to_string(),
            Value::Bool(false) => "FALSE".to_string(),
            Value::Null => "NULL".to_string(),
        }
    }

    /// Whether a row may hold this value in a column of that type and nullability.
    pub fn fits(&self, column_type: ColumnType, nullable: bool) -> bool {
        match self {
            Value::Int(_) => column_type == ColumnType::Int,
            Value::Text(_) => column_type == ColumnType::Text,
            Value::Bool(_) => column_type == ColumnType::Bool,
            Value::Null => nullable,
        }
    }
}
