//! A stand-in for the SQL parser that the original is written against: the types, variants and fields that the analyzer
//! names, under the same names. There is no parser behind them, so no text becomes a tree here.

pub mod ast;

pub mod dialect {
    pub struct GenericDialect {}
}

pub mod parser {
    use crate::ast::Statement;
    use crate::dialect::GenericDialect;

    #[derive(Debug, Clone, PartialEq, Eq)]
    pub struct ParserError(pub String);

    impl std::fmt::Display for ParserError {
        fn fmt(&self, formatter: &mut std::fmt::Formatter<'_>) -> std::fmt::Result {
            formatter.write_str(&self.0)
        }
    }

    pub struct Parser;

    impl Parser {
        pub fn parse_sql(_dialect: &GenericDialect, _sql: &str) -> Result<Vec<Statement>, ParserError> {
            Err(ParserError("the stand-in has no parser".to_string()))
        }
    }
}
