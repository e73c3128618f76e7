//! What `twin analyse` makes of a network whose servers are in a cycle, by Rust's own crate `toml` in place of the twin's reader, which is written for
//! these files alone. It analyses nothing: of another network it says so.
//!
//!     twin_toml values FILE     reads values of the crate, and makes of them the network that the twin makes, with all its checks
//!     twin_toml structs FILE    reads structs that serde derives, and makes and checks no more than their numbers

#![allow(dead_code)] // the twin's own modules have more

#[path = "../../twin/src/conv.rs"]
mod conv;
#[path = "../../twin/src/curve.rs"]
mod curve;
#[path = "../../twin/src/frac.rs"]
mod frac;
#[path = "../../twin/src/net.rs"]
mod net;
#[path = "../../twin/src/ops.rs"]
mod ops;
mod structs;
#[path = "../../twin/src/toml.rs"]
mod toml;

use crate::toml::{Table, Value};
use ::toml::value::Table as ReadTable;
use ::toml::Value as ReadValue;
use std::borrow::Cow;

fn table_of(table: &ReadTable) -> Option<Table<'_>> {
    let mut entries = Vec::with_capacity(table.len());
    for (key, value) in table {
        entries.push((Cow::Borrowed(key.as_str()), value_of(value)?));
    }
    Some(Table(entries))
}

/// A value with texts that are borrowed.
fn value_of(value: &ReadValue) -> Option<Value<'_>> {
    Some(match value {
        ReadValue::Integer(number) => Value::Int(*number as i128),
        ReadValue::String(text) => Value::Str(Cow::Borrowed(text)),
        ReadValue::Boolean(truth) => Value::Bool(*truth),
        ReadValue::Array(values) => Value::Arr(values.iter().map(value_of).collect::<Option<_>>()?),
        ReadValue::Table(table) => Value::Tab(table_of(table)?),
        ReadValue::Float(_) | ReadValue::Datetime(_) => return None,
    })
}

/// Whether the servers of a network are in a cycle.
fn is_cyclic(text: &str) -> Option<bool> {
    let table: ReadTable = ::toml::from_str(text).ok()?;
    let held = table_of(&table)?;
    let network = net::read(&held)?;
    let is_cyclic = net::order(&network).is_none();
    std::mem::forget((network, held)); // as the twin, which ends without letting go of anything
    std::mem::forget(table);
    Some(is_cyclic)
}

fn main() {
    let words: Vec<String> = std::env::args().collect();
    let [_, way, path] = &words[..] else {
        eprintln!("twin_toml: values FILE or structs FILE");
        std::process::exit(2);
    };
    let text = std::fs::read_to_string(path).unwrap_or_default();
    let said = match way.as_str() {
        "values" => is_cyclic(&text).map(|is_cyclic| if is_cyclic { "cycle" } else { "no cycle" }.to_string()),
        "structs" => structs::counts(&text),
        _ => None,
    };
    println!("twin_toml: {}", said.as_deref().unwrap_or("no network"));
    std::process::exit(if said.is_some() { 0 } else { 1 });
}
