//! The names of the kit's `toml` over the real one.
use super::alloc::{AllocError, Global};
use super::memory::{Refusable, String, Vec};
use ::toml::Value as Real;
use std::collections::BTreeMap;
use std::string::String as Text;

/// A value, of the kinds that scenes have.
pub enum Value {
    String(String),
    Integer(i64),
    Array(Vec<Value>),
    Other,
}

impl Value {
    pub fn string(alloc: Global, text: &str) -> Result<Value, AllocError> {
        String::from_str(alloc, text).map(Value::String)
    }
    pub fn as_integer(&self) -> Option<i64> {
        if let Value::Integer(number) = self { Some(*number) } else { None }
    }
    pub fn as_str(&self) -> Option<&str> {
        if let Value::String(text) = self { Some(text) } else { None }
    }
    pub fn is_integer(&self) -> bool { matches!(self, Value::Integer(_)) }
    pub fn is_str(&self) -> bool { matches!(self, Value::String(_)) }
    pub fn is_array(&self) -> bool { matches!(self, Value::Array(_)) }
}

impl From<Real> for Value {
    fn from(value: Real) -> Value {
        match value {
            Real::String(text) => Value::String(Refusable(text)),
            Real::Integer(number) => Value::Integer(number),
            Real::Array(items) => {
                Value::Array(Refusable(items.into_iter().map(Value::from).collect()))
            }
            _ => Value::Other,
        }
    }
}

pub struct Table(BTreeMap<Text, Value>);

impl Table {
    pub fn new(_: Global) -> Table { Table(BTreeMap::new()) }
    pub fn get(&self, key: &str) -> Option<&Value> { self.0.get(key) }
    pub fn keys(&self) -> impl Iterator<Item = &Text> { self.0.keys() }
    pub fn insert(&mut self, key: String, value: Value) -> Result<Option<Value>, AllocError> {
        Ok(self.0.insert(key.0, value))
    }
}

pub struct Error;

impl Error {
    /// Whether memory was refused, which the real crate does not survive.
    pub fn is_memory(&self) -> bool { false }
}

pub fn table_from_slice(_: Global, text: &[u8]) -> Result<Table, Error> {
    let text = std::str::from_utf8(text).map_err(|_| Error)?;
    let Ok(Real::Table(table)) = text.parse::<Real>() else {
        return Err(Error);
    };
    let members = table.into_iter().map(|(key, value)| (key, Value::from(value)));
    Ok(Table(members.collect()))
}

/// The text of a table of numbers, plain texts and lists of plain texts, as the kit lays it out.
pub fn table_to_string_pretty(_: Global, table: &Table) -> Result<String, Error> {
    let mut text = Text::new();
    for (key, value) in &table.0 {
        text += &match value {
            Value::Integer(number) => std::format!("{key} = {number}\n"),
            Value::String(word) => std::format!("{key} = \"{word}\"\n"),
            Value::Array(rows) => {
                let line = |row: &Value| row.as_str().map(|row| std::format!("    \"{row}\",\n"));
                let lines: Option<Text> = rows.iter().map(line).collect();
                std::format!("{key} = [\n{}]\n", lines.ok_or(Error)?)
            }
            Value::Other => return Err(Error),
        };
    }
    Ok(Refusable(text))
}
