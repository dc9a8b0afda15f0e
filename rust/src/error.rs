//! One error for all that can go wrong, for callers who pass every error on.
use crate::{EditError, JsonError, Refusal, TableError};
use core::fmt;

/// Any error of this crate.
///
/// ```
/// use stewpebble::{Error, Plan, Table};
///
/// fn count(json: &str, query: &str) -> Result<usize, Error> {
///     let table: Table = json.parse()?;
///     let plan: Plan = query.parse()?;
///     Ok(plan.run(&table)?.len())
/// }
///
/// assert_eq!(count("[1,2]", "$[*]"), Ok(2));
/// assert_eq!(count("[1,", "$[*]").unwrap_err().to_string(), "line 1, column 4: a value is expected");
/// assert!(matches!(count("[]", "$[").unwrap_err(), Error::Refusal(_)));
/// ```
#[derive(Clone, Debug, PartialEq, Eq)]
#[non_exhaustive]
pub enum Error {
    /// A text is not JSON.
    Json(JsonError),
    /// A value has no table.
    Table(TableError),
    /// The library refused.
    Refusal(Refusal),
    /// A change of a table was refused.
    Edit(EditError),
}

impl fmt::Display for Error {
    fn fmt(&self, f: &mut fmt::Formatter<'_>) -> fmt::Result {
        match self {
            Error::Json(e) => e.fmt(f),
            Error::Table(e) => e.fmt(f),
            Error::Refusal(e) => e.fmt(f),
            Error::Edit(e) => e.fmt(f),
        }
    }
}

#[cfg(feature = "std")]
impl std::error::Error for Error {
    fn source(&self) -> Option<&(dyn std::error::Error + 'static)> {
        Some(match self {
            Error::Json(e) => e,
            Error::Table(e) => e,
            Error::Refusal(e) => e,
            Error::Edit(e) => e,
        })
    }
}

impl From<JsonError> for Error {
    fn from(e: JsonError) -> Error {
        Error::Json(e)
    }
}

impl From<TableError> for Error {
    fn from(e: TableError) -> Error {
        Error::Table(e)
    }
}

impl From<Refusal> for Error {
    fn from(e: Refusal) -> Error {
        Error::Refusal(e)
    }
}

impl From<EditError> for Error {
    fn from(e: EditError) -> Error {
        Error::Edit(e)
    }
}
