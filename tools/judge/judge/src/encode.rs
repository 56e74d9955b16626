//! From the values that the Rust works on to their images.
//!
//! This is what a program that already parses its SQL calls. A mark is computed with the very test that the analyzer
//! makes at that place.

use images::bytes::Written;
use images::statement as image;
use images::value::{ColumnType, ExpressionType, Operator, Value as ImageValue};
use images::{bound as image_bound, catalogue as image_catalogue};
use ragnordb_catalog::{ColumnSchema, TableSchema};
use ragnordb_common::catalog_codec::DataType as CatalogType;
use ragnordb_common::codec::Value as BoundValue;
use sqlparser::ast::{
    Assignment, AssignmentTarget, BinaryOperator, ColumnDef, ColumnOption, ColumnOptionDef, CreateTable, DataType,
    Delete, Expr, FromTable, GroupByExpr, HiveDistributionStyle, HiveFormat, Ident, Insert, ObjectName, Query, Select,
    SelectItem, SetExpr, ShowStatementOptions, Statement as SqlStatement, TableConstraint, TableFactor, TableWithJoins,
    UnaryOperator, Value, WildcardAdditionalOptions,
};

use crate::bound::{
    BoundAssignment, BoundBinaryOperator, BoundColumnRef, BoundExpr, BoundExprKind, BoundStatement, BoundTableRef,
    BoundUnaryOperator, ExpressionType as BoundType,
};
use crate::parser::Statement;

/// The image of a parsed statement.
pub fn encode_statement(statement: &Statement) -> Written {
    statement_value(statement).encode()
}

/// The image of a catalogue's tables. It must be sound.
pub fn encode_catalogue(tables: &[TableSchema]) -> Written {
    catalogue_value(tables).encode()
}

/// The image of the analyzer's answer.
pub fn encode_bound(bound: &BoundStatement) -> Written {
    bound_value(bound).encode()
}

// ---- statements ----

pub fn statement_value(statement: &Statement) -> image::Statement {
    image::Statement { raw: statement.raw.clone(), tree: tree(&statement.ast) }
}

fn tree(statement: &SqlStatement) -> image::Tree {
    match statement {
        SqlStatement::CreateTable(create) => image::Tree::CreateTable(create_table(create)),
        SqlStatement::Insert(insert) => image::Tree::Insert(insert_value(insert)),
        SqlStatement::Query(query) => image::Tree::Query(query_value(query)),
        SqlStatement::Update { table, assignments, from, selection, returning, or } => {
            image::Tree::Update(image::Update {
                from: from.is_some(),
                returning: returning.is_some(),
                conflict: or.is_some(),
                table: table_value(table),
                assignments: assignments.iter().map(assignment).collect(),
                condition: selection.as_ref().map(expression),
            })
        }
        SqlStatement::Delete(delete) => image::Tree::Delete(delete_value(delete)),
        SqlStatement::StartTransaction { modes, modifier, .. } => {
            image::Tree::Begin { modes: !modes.is_empty() || modifier.is_some() }
        }
        SqlStatement::Commit { chain } => image::Tree::Commit { chain: *chain },
        SqlStatement::Rollback { chain, savepoint } => {
            image::Tree::Rollback { chain: *chain, savepoint: savepoint.is_some() }
        }
        SqlStatement::ShowTables { terse, history, extended, full, external, show_options } => {
            let modified = *terse || *history || *extended || *full || *external;
            image::Tree::ShowTables { options: modified || has_show_options(show_options) }
        }
        _ => image::Tree::Other,
    }
}

fn has_show_options(options: &ShowStatementOptions) -> bool {
    options.show_in.is_some()
        || options.starts_with.is_some()
        || options.limit.is_some()
        || options.limit_from.is_some()
        || options.filter_position.is_some()
}

fn create_table(create: &CreateTable) -> image::CreateTable {
    image::CreateTable {
        if_not_exists: create.if_not_exists,
        query: create.query.is_some(),
        features: has_unsupported_feature(create),
        name: object_name(&create.name),
        columns: create.columns.iter().map(column_definition).collect(),
        constraints: create.constraints.iter().map(constraint).collect(),
    }
}

fn has_unsupported_feature(create: &CreateTable) -> bool {
    create.or_replace
        || create.temporary
        || create.external
        || create.global.is_some()
        || create.transient
        || create.volatile
        || !matches!(&create.hive_distribution, HiveDistributionStyle::NONE)
        || has_hive_format_options(&create.hive_formats)
        || !create.table_properties.is_empty()
        || !create.with_options.is_empty()
        || create.file_format.is_some()
        || create.location.is_some()
        || create.without_rowid
        || create.like.is_some()
        || create.clone.is_some()
        || create.engine.is_some()
        || create.comment.is_some()
        || create.auto_increment_offset.is_some()
        || create.default_charset.is_some()
        || create.collation.is_some()
        || create.on_commit.is_some()
        || create.on_cluster.is_some()
        || create.primary_key.is_some()
        || create.order_by.is_some()
        || create.partition_by.is_some()
        || create.cluster_by.is_some()
        || create.clustered_by.is_some()
        || create.options.is_some()
        || create.strict
        || create.copy_grants
        || create.enable_schema_evolution.is_some()
        || create.change_tracking.is_some()
        || create.data_retention_time_in_days.is_some()
        || create.max_data_extension_time_in_days.is_some()
        || create.default_ddl_collation.is_some()
        || create.with_aggregation_policy.is_some()
        || create.with_row_access_policy.is_some()
        || create.with_tags.is_some()
}

fn has_hive_format_options(formats: &Option<HiveFormat>) -> bool {
    formats.as_ref().is_some_and(|format| {
        format.row_format.is_some()
            || format.serde_properties.is_some()
            || format.storage.is_some()
            || format.location.is_some()
    })
}

fn column_definition(column: &ColumnDef) -> image::ColumnDefinition {
    image::ColumnDefinition {
        collation: column.collation.is_some(),
        name: name(&column.name),
        options: column.options.iter().map(column_option).collect(),
        data_type: match &column.data_type {
            DataType::Int(_) | DataType::Integer(_) => image::DataType::Int,
            DataType::Text => image::DataType::Text,
            DataType::Bool | DataType::Boolean => image::DataType::Bool,
            _ => image::DataType::Other,
        },
    }
}

fn column_option(option: &ColumnOptionDef) -> image::ColumnOption {
    image::ColumnOption {
        named: option.name.is_some(),
        kind: match &option.option {
            ColumnOption::Null => image::OptionKind::Null,
            ColumnOption::NotNull => image::OptionKind::NotNull,
            ColumnOption::Unique { is_primary: true, characteristics: None } => image::OptionKind::Key,
            ColumnOption::Unique { is_primary: true, characteristics: Some(_) } => {
                image::OptionKind::KeyWithCharacteristics
            }
            _ => image::OptionKind::Other,
        },
    }
}

fn constraint(constraint: &TableConstraint) -> image::Constraint {
    match constraint {
        TableConstraint::PrimaryKey {
            name: constraint_name,
            index_name,
            index_type,
            columns,
            index_options,
            characteristics,
        } => image::Constraint::PrimaryKey {
            features: constraint_name.is_some()
                || index_name.is_some()
                || index_type.is_some()
                || !index_options.is_empty()
                || characteristics.is_some(),
            names: columns.iter().map(name).collect(),
        },
        _ => image::Constraint::Other,
    }
}

fn name(identifier: &Ident) -> image::Name {
    image::Name { quoted: identifier.quote_style.is_some(), text: identifier.value.clone() }
}

fn object_name(object: &ObjectName) -> image::ObjectName {
    match object.0.as_slice() {
        [one] => image::ObjectName::One(name(one)),
        _ => image::ObjectName::Other,
    }
}

fn insert_value(insert: &Insert) -> image::Insert {
    image::Insert {
        features: insert.or.is_some()
            || insert.ignore
            || !insert.into
            || insert.table_alias.is_some()
            || insert.overwrite
            || insert.partitioned.is_some()
            || !insert.after_columns.is_empty()
            || insert.table
            || insert.on.is_some()
            || insert.returning.is_some()
            || insert.replace_into
            || insert.priority.is_some()
            || insert.insert_alias.is_some(),
        table: object_name(&insert.table_name),
        columns: insert.columns.iter().map(name).collect(),
        source: insert.source.as_deref().map(source),
    }
}

fn source(query: &Query) -> image::Source {
    let values = match query.body.as_ref() {
        SetExpr::Values(values) => Some(image::Values {
            explicit_row: values.explicit_row,
            rows: values.rows.iter().map(|row| row.iter().map(expression).collect()).collect(),
        }),
        _ => None,
    };
    image::Source { clauses: has_query_clauses(query), values }
}

fn has_query_clauses(query: &Query) -> bool {
    query.with.is_some()
        || query.order_by.is_some()
        || query.limit.is_some()
        || !query.limit_by.is_empty()
        || query.offset.is_some()
        || query.fetch.is_some()
        || !query.locks.is_empty()
        || query.for_clause.is_some()
        || query.settings.is_some()
        || query.format_clause.is_some()
}

fn query_value(query: &Query) -> image::Query {
    let select = match query.body.as_ref() {
        SetExpr::Select(select) => Some(select_value(select)),
        _ => None,
    };
    image::Query { clauses: has_query_clauses(query), select }
}

fn select_value(select: &Select) -> image::Select {
    image::Select {
        features: has_select_features(select),
        from: match select.from.as_slice() {
            [one] => Some(table_value(one)),
            _ => None,
        },
        items: select.projection.iter().map(item).collect(),
        condition: select.selection.as_ref().map(expression),
    }
}

fn has_select_features(select: &Select) -> bool {
    let has_group_by = match &select.group_by {
        GroupByExpr::All(_) => true,
        GroupByExpr::Expressions(expressions, modifiers) => !expressions.is_empty() || !modifiers.is_empty(),
    };

    select.distinct.is_some()
        || select.top.is_some()
        || select.top_before_distinct
        || select.into.is_some()
        || !select.lateral_views.is_empty()
        || select.prewhere.is_some()
        || has_group_by
        || !select.cluster_by.is_empty()
        || !select.distribute_by.is_empty()
        || !select.sort_by.is_empty()
        || select.having.is_some()
        || !select.named_window.is_empty()
        || select.qualify.is_some()
        || select.window_before_qualify
        || select.value_table_mode.is_some()
        || select.connect_by.is_some()
}

fn item(item: &SelectItem) -> image::Item {
    match item {
        SelectItem::Wildcard(options) if wildcard_options_are_empty(options) => image::Item::Wildcard,
        SelectItem::UnnamedExpr(Expr::Identifier(identifier)) => image::Item::Name(name(identifier)),
        _ => image::Item::Other,
    }
}

fn wildcard_options_are_empty(options: &WildcardAdditionalOptions) -> bool {
    options.opt_ilike.is_none()
        && options.opt_exclude.is_none()
        && options.opt_except.is_none()
        && options.opt_replace.is_none()
        && options.opt_rename.is_none()
}

fn table_value(table: &TableWithJoins) -> image::Table {
    let relation = match &table.relation {
        TableFactor::Table { name, alias, args, with_hints, version, with_ordinality, partitions, json_path } => {
            Some(image::Relation {
                features: alias.is_some()
                    || args.is_some()
                    || !with_hints.is_empty()
                    || version.is_some()
                    || *with_ordinality
                    || !partitions.is_empty()
                    || json_path.is_some(),
                name: object_name(name),
            })
        }
        _ => None,
    };
    image::Table { joins: !table.joins.is_empty(), relation }
}

fn assignment(assignment: &Assignment) -> image::Assignment {
    image::Assignment {
        target: match &assignment.target {
            AssignmentTarget::ColumnName(name) => image::Target::Column(object_name(name)),
            AssignmentTarget::Tuple(_) => image::Target::Tuple,
        },
        value: expression(&assignment.value),
    }
}

fn delete_value(delete: &Delete) -> image::Delete {
    image::Delete {
        tables: !delete.tables.is_empty(),
        using: delete.using.is_some(),
        returning: delete.returning.is_some(),
        order_by: !delete.order_by.is_empty(),
        limit: delete.limit.is_some(),
        from: match &delete.from {
            FromTable::WithoutKeyword(_) => image::DeleteFrom::WithoutKeyword,
            FromTable::WithFromKeyword(from) => match from.as_slice() {
                [one] => image::DeleteFrom::Table(table_value(one)),
                _ => image::DeleteFrom::NotOne,
            },
        },
        condition: delete.selection.as_ref().map(expression),
    }
}

fn expression(expression: &Expr) -> image::Expression {
    let mut nodes = Vec::new();
    push_nodes(expression, &mut nodes);
    image::Expression { nodes }
}

/// Children before parents, left before right.
fn push_nodes(expression: &Expr, nodes: &mut Vec<image::Node>) {
    let node = match expression {
        Expr::Identifier(identifier) => image::Node::Name(name(identifier)),
        Expr::Value(value) => literal(value),
        Expr::Nested(inner) => {
            push_nodes(inner, nodes);
            image::Node::Parentheses
        }
        Expr::IsNull(inner) => {
            push_nodes(inner, nodes);
            image::Node::IsNull
        }
        Expr::IsNotNull(inner) => {
            push_nodes(inner, nodes);
            image::Node::IsNotNull
        }
        Expr::UnaryOp { op, expr } => {
            push_nodes(expr, nodes);
            unary_operator(op)
        }
        Expr::BinaryOp { left, op, right } => {
            push_nodes(left, nodes);
            push_nodes(right, nodes);
            binary_operator(op)
        }
        _ => image::Node::OtherExpression,
    };
    nodes.push(node);
}

fn literal(value: &Value) -> image::Node {
    match value {
        Value::Number(text, _) => image::Node::Number(text.clone()),
        Value::SingleQuotedString(text) => image::Node::Text(text.clone()),
        Value::Boolean(true) => image::Node::True,
        Value::Boolean(false) => image::Node::False,
        Value::Null => image::Node::Null,
        _ => image::Node::OtherLiteral,
    }
}

fn unary_operator(operator: &UnaryOperator) -> image::Node {
    match operator {
        UnaryOperator::Plus => image::Node::Plus,
        UnaryOperator::Minus => image::Node::Minus,
        UnaryOperator::Not => image::Node::Not,
        _ => image::Node::OtherUnary,
    }
}

fn binary_operator(operator: &BinaryOperator) -> image::Node {
    image::Node::Binary(match operator {
        BinaryOperator::Plus => Operator::Add,
        BinaryOperator::Minus => Operator::Subtract,
        BinaryOperator::Multiply => Operator::Multiply,
        BinaryOperator::Divide => Operator::Divide,
        BinaryOperator::Modulo => Operator::Modulo,
        BinaryOperator::Eq => Operator::Equal,
        BinaryOperator::NotEq => Operator::NotEqual,
        BinaryOperator::Gt => Operator::Greater,
        BinaryOperator::GtEq => Operator::GreaterOrEqual,
        BinaryOperator::Lt => Operator::Less,
        BinaryOperator::LtEq => Operator::LessOrEqual,
        BinaryOperator::And => Operator::And,
        BinaryOperator::Or => Operator::Or,
        _ => return image::Node::OtherBinary,
    })
}

// ---- catalogues ----

pub fn catalogue_value(tables: &[TableSchema]) -> image_catalogue::Catalogue {
    image_catalogue::Catalogue { tables: tables.iter().map(table_schema).collect() }
}

fn table_schema(table: &TableSchema) -> image_catalogue::Table {
    image_catalogue::Table {
        id: table.id.0,
        version: table.schema_version,
        tablets: table.tablet_count,
        name: table.name.clone(),
        columns: table.columns.iter().map(column_schema).collect(),
        key: table.primary_key_column_ids.iter().map(|id| id.0).collect(),
    }
}

fn column_schema(column: &ColumnSchema) -> image_catalogue::Column {
    image_catalogue::Column {
        id: column.id.0,
        data_type: column_type(column.ty),
        nullable: column.nullable,
        name: column.name.clone(),
    }
}

fn column_type(data_type: CatalogType) -> ColumnType {
    match data_type {
        CatalogType::Int => ColumnType::Int,
        CatalogType::Text => ColumnType::Text,
        CatalogType::Bool => ColumnType::Bool,
    }
}

// ---- bound statements ----

pub fn bound_value(bound: &BoundStatement) -> image_bound::Bound {
    match bound {
        BoundStatement::CreateTable(create) => image_bound::Bound::CreateTable {
            name: create.table_name.clone(),
            columns: create.columns.iter().map(column_schema).collect(),
            key: create.primary_key_column_ids.iter().map(|id| id.0).collect(),
        },
        BoundStatement::Insert(insert) => image_bound::Bound::Insert {
            table: table_ref(&insert.table),
            columns: insert.target_columns.iter().map(column_ref).collect(),
            rows: insert.rows.iter().map(|row| row.iter().map(bound_literal).collect()).collect(),
        },
        BoundStatement::Select(select) => image_bound::Bound::Select {
            table: table_ref(&select.table),
            projection: select.projection.iter().map(column_ref).collect(),
            filter: select.filter.as_ref().map(bound_expression),
        },
        BoundStatement::Update(update) => image_bound::Bound::Update {
            table: table_ref(&update.table),
            assignments: update.assignments.iter().map(bound_assignment).collect(),
            filter: bound_expression(&update.filter),
        },
        BoundStatement::Delete(delete) => {
            image_bound::Bound::Delete { table: table_ref(&delete.table), filter: bound_expression(&delete.filter) }
        }
        BoundStatement::Begin => image_bound::Bound::Begin,
        BoundStatement::Commit => image_bound::Bound::Commit,
        BoundStatement::Rollback => image_bound::Bound::Rollback,
        BoundStatement::ShowTables => image_bound::Bound::ShowTables,
        BoundStatement::ShowTransactions => image_bound::Bound::ShowTransactions,
    }
}

fn table_ref(table: &BoundTableRef) -> image_bound::TableRef {
    image_bound::TableRef { id: table.table_id.0, version: table.schema_version, name: table.name.clone() }
}

fn column_ref(column: &BoundColumnRef) -> image_bound::ColumnRef {
    image_bound::ColumnRef {
        table_id: column.table_id.0,
        column_id: column.column_id.0,
        ordinal: column.ordinal as u64,
        data_type: column_type(column.data_type),
        nullable: column.nullable,
        name: column.name.clone(),
    }
}

fn bound_assignment(assignment: &BoundAssignment) -> image_bound::Assignment {
    image_bound::Assignment { column: column_ref(&assignment.column), value: bound_expression(&assignment.value) }
}

fn bound_expression(expression: &BoundExpr) -> image_bound::Expression {
    let mut nodes = Vec::new();
    push_bound_nodes(expression, &mut nodes);
    image_bound::Expression { nodes }
}

fn push_bound_nodes(expression: &BoundExpr, nodes: &mut Vec<image_bound::Node>) {
    let kind = match &expression.kind {
        BoundExprKind::Column(column) => image_bound::NodeKind::Column(column_ref(column)),
        BoundExprKind::Literal(value) => image_bound::NodeKind::Literal(bound_literal(value)),
        BoundExprKind::Unary { operator, expression } => {
            push_bound_nodes(expression, nodes);
            match operator {
                BoundUnaryOperator::Positive => image_bound::NodeKind::Positive,
                BoundUnaryOperator::Negative => image_bound::NodeKind::Negative,
                BoundUnaryOperator::Not => image_bound::NodeKind::Not,
            }
        }
        BoundExprKind::IsNull { expression, negated } => {
            push_bound_nodes(expression, nodes);
            if *negated { image_bound::NodeKind::IsNotNull } else { image_bound::NodeKind::IsNull }
        }
        BoundExprKind::Binary { left, operator, right } => {
            push_bound_nodes(left, nodes);
            push_bound_nodes(right, nodes);
            image_bound::NodeKind::Binary(bound_operator(*operator))
        }
    };
    let data_type = match expression.data_type {
        BoundType::Int => ExpressionType::Int,
        BoundType::Text => ExpressionType::Text,
        BoundType::Bool => ExpressionType::Bool,
        BoundType::Null => ExpressionType::Null,
    };
    nodes.push(image_bound::Node { kind, data_type, nullable: expression.nullable });
}

fn bound_literal(value: &BoundValue) -> ImageValue {
    match value {
        BoundValue::Int(number) => ImageValue::Int(*number),
        BoundValue::Text(text) => ImageValue::Text(text.clone()),
        BoundValue::Bool(value) => ImageValue::Bool(*value),
        BoundValue::Null => ImageValue::Null,
    }
}

fn bound_operator(operator: BoundBinaryOperator) -> Operator {
    match operator {
        BoundBinaryOperator::Add => Operator::Add,
        BoundBinaryOperator::Subtract => Operator::Subtract,
        BoundBinaryOperator::Multiply => Operator::Multiply,
        BoundBinaryOperator::Divide => Operator::Divide,
        BoundBinaryOperator::Modulo => Operator::Modulo,
        BoundBinaryOperator::Equal => Operator::Equal,
        BoundBinaryOperator::NotEqual => Operator::NotEqual,
        BoundBinaryOperator::GreaterThan => Operator::Greater,
        BoundBinaryOperator::GreaterThanOrEqual => Operator::GreaterOrEqual,
        BoundBinaryOperator::LessThan => Operator::Less,
        BoundBinaryOperator::LessThanOrEqual => Operator::LessOrEqual,
        BoundBinaryOperator::And => Operator::And,
        BoundBinaryOperator::Or => Operator::Or,
    }
}
