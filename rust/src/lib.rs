//! JSONPath over flat tables of JSON values, for engines that run the same query at each recalculation.
//!
//! A query is compiled once into a [`Plan`], values are laid out once in a [`Table`], and [`Plan::run`] hands out the
//! [`Node`]s that the query selects. Every operation is thin over a function of the proved library: what a query means,
//! when each refusal is given and what is written where are stated in the repository and proved of the code. What is Rust
//! here, and tested instead, is said where it is: reading and writing JSON, laying out a table, reading a part of it or a
//! node's path, and changing one node of it.
//!
//! ```
//! use stewpebble::{Plan, Table};
//!
//! let mut table: Table = r#"{"rows":[{"name":"x","qty":3},{"name":"y","qty":7}]}"#.parse()?;
//! let plan: Plan = "$.rows[?@.qty > 5].name".parse()?;
//! let names: Vec<&str> = plan.run(&table)?.filter_map(|node| node.text()).collect();
//! assert_eq!(names, ["y"]);
//!
//! // A recalculation: one value changes in place, and the same plan runs again.
//! let quantity = stewpebble::select("$.rows[0].qty", &table)?.next().unwrap().number();
//! table.set_number(quantity, 6)?;
//! assert_eq!(plan.run(&table)?.len(), 2);
//! # Ok::<(), stewpebble::Error>(())
//! ```
//!
//! In the repository, `docs/REFERENCE.md` has the exact rules, and `docs/RFC9535.md` every difference from RFC 9535,
//! which defines JSONPath.
//!
//! # Expressions
//!
//! `match(text, expression)` holds where the expression describes the whole of the text, and `search(text, expression)`
//! where it describes some part of it. An expression is of RFC 9485 (I-Regexp), up to 1,024 bytes: characters, `.`,
//! `[a-z]`, `[^a-z]`, groups, `|`, `?`, `*`, `+`, `{2}`, `{2,}` and `{2,5}`, with counts up to 64.
//!
//! ```
//! use stewpebble::{select, Table};
//!
//! let table: Table = r#"["b7", "b42", "ab7", "b", 7, "a.b"]"#.parse()?;
//! assert_eq!(select("$[?match(@, 'b[0-9]+')]", &table)?.numbers(), [1, 2]);
//! assert_eq!(select("$[?search(@, 'b[0-9]+')]", &table)?.numbers(), [1, 2, 3]);
//! assert_eq!(select("$[?!search(@, 'b')]", &table)?.numbers(), [5]);
//! // In the quotes of a query a backslash is written twice.
//! assert_eq!(select(r"$[?search(@, '\\.')]", &table)?.numbers(), [6]);
//! # Ok::<(), stewpebble::Error>(())
//! ```
//!
//! For who comes from other engines: there are no anchors, since match is whole; `^` and `$` are characters like any other.
//! There are no `\d`, `\w`, `\s` and `\b`, no flags, no back references, no lazy repeats and no groups that look ahead. An
//! expression that has one is no error: the function is then false, as it is where the text or the expression is no text.
//!
//! ```
//! use stewpebble::{select, Table};
//!
//! let table: Table = r#"["a1", "^a", 1]"#.parse()?;
//! assert_eq!(select("$[?search(@, '^a')]", &table)?.numbers(), [2]);
//! assert_eq!(select(r"$[?search(@, '\\d')]", &table)?.len(), 0);
//! assert_eq!(select(r"$[?!search(@, '\\d')]", &table)?.len(), 3);
//! # Ok::<(), stewpebble::Error>(())
//! ```
//!
//! # Hostile queries and values
//!
//! No query, no JSON text and no stored plan or table makes safe code of this crate panic. A run hands out at most
//! [`DEFAULT_LIMIT`] nodes, or as many as the caller says ([`Plan::run_up_to`]). The limit bounds memory and not time: a
//! query may visit many nodes and select few, and an expression whose counts nest may take long. Threads of Rust have stack enough for every call; `include/stewpebble.h` in
//! the repository says how much that is.
//!
//! # Features
//!
//! `std`, on by default, makes the errors `std::error::Error`s. Without it the crate needs only `alloc`.
//! Conversions to and from `serde_json` come with the feature `serde_json`, which has a manifest of its own,
//! `rust/with-serde-json/Cargo.toml`: Cargo asks a registry for each dependency that a manifest names, even for one that is
//! switched off, and this crate builds where there is no registry.
#![cfg_attr(not(feature = "std"), no_std)]
#![deny(missing_docs)]
#![deny(unsafe_code)]
// The feature serde_json is named by the other manifest alone.
#![allow(unknown_lints, unexpected_cfgs)]

extern crate alloc;

mod builder;
mod edit;
mod error;
#[allow(unsafe_code)]
mod foreign;
mod item;
mod json;
mod limits;
mod node;
mod path;
mod plan;
mod record;
mod refusal;
#[cfg(feature = "serde_json")]
mod serde;
mod table;
mod tally;
mod value;

pub use builder::TableError;
pub use edit::{EditError, Number};
pub use error::Error;
pub use item::{Item, Items};
pub use json::JsonError;
pub use node::{Kind, Node, Nodes};
pub use path::Path;
pub use plan::{compile, compile_bytes, select, select_into, select_up_to, Plan, DEFAULT_LIMIT};
pub use refusal::Refusal;
pub use table::{check_records, check_table, check_texts, key_of_node, path_of_node, text_of_node, Table};
pub use tally::Tally;
pub use value::Value;

/// The examples of the page are tried with the others.
#[cfg(doctest)]
#[doc = include_str!("../README.md")]
struct Page;
