//! Plans: queries that were compiled, and how they are run.
use crate::foreign::{self, Refused};
use crate::limits::MAX_QUERY;
use crate::refusal::Given;
use crate::{Items, Nodes, Refusal, Table};
use alloc::vec;
use alloc::vec::Vec;
use core::str::FromStr;

/// The most nodes that [`Plan::run`] and [`select`] hand out: 1,048,576, which is sixteen times the nodes of the largest
/// table and takes 4 MiB.
///
/// ```
/// use stewpebble::{select, Refusal, Table, DEFAULT_LIMIT};
///
/// // Each `[*,*]` doubles what is selected.
/// let table: Table = format!("{}1{}", "[".repeat(50), "]".repeat(50)).parse().unwrap();
/// let query = format!("${}", "[*,*]".repeat(50));
/// assert_eq!(select(&query, &table).unwrap_err(), Refusal::LimitPassed { limit: DEFAULT_LIMIT });
/// ```
pub const DEFAULT_LIMIT: usize = 1 << 20;

/// How many places a list has before it is known to need more.
const FIRST_PLACES: usize = 256;

/// The bytes of plan that a byte of a query needs at most, as `include/stewpebble.h` says.
const PLAN_FOR_A_BYTE: usize = 13;

/// A compiled query: a plan and a pool of texts. No table is in it, so one plan serves every table, also after values
/// have changed kind.
///
/// ```
/// use stewpebble::{Plan, Table};
///
/// let plan: Plan = "$[?@ >= 20]".parse()?;
/// let table: Table = "[10, 20.0, \"30\", 40]".parse()?;
/// assert_eq!(plan.run(&table)?.numbers(), [2, 4]);
/// # Ok::<(), stewpebble::Error>(())
/// ```
#[derive(Clone, Debug, PartialEq, Eq, Hash)]
pub struct Plan {
    plan: Vec<u8>,
    pool: Vec<u8>,
}

/// Compiles a query.
///
/// ```
/// use stewpebble::{compile, Refusal};
///
/// assert!(compile("$.a[1:]").is_ok());
/// assert_eq!(compile("a[1:]"), Err(Refusal::Syntax));
/// ```
pub fn compile(query: &str) -> Result<Plan, Refusal> {
    compile_bytes(query.as_bytes())
}

/// Compiles a query given as bytes, which need not be UTF-8.
///
/// ```
/// use stewpebble::{compile_bytes, Refusal};
///
/// assert_eq!(compile_bytes(b"$.a\xFF"), Err(Refusal::QueryNotUtf8 { at: 3 }));
/// ```
pub fn compile_bytes(query: &[u8]) -> Result<Plan, Refusal> {
    // A query that is too long is refused before anything is written.
    let bytes = query.len().min(MAX_QUERY);
    let mut plan = vec![0; PLAN_FOR_A_BYTE * bytes];
    let mut pool = vec![0; bytes];
    let written = foreign::compile(query, &mut plan, &mut pool);
    let (used, texts) = written.map_err(|refused| Refusal::new(refused, Given { query, ..Given::default() }))?;
    plan.truncate(used);
    pool.truncate(texts);
    plan.shrink_to_fit();
    pool.shrink_to_fit();
    Ok(Plan { plan, pool })
}

/// Selects without a plan of one's own: the nodes of a table that a query selects, up to [`DEFAULT_LIMIT`].
///
/// ```
/// use stewpebble::{select, Table};
///
/// let table: Table = r#"{"a":[10,20.0,30],"b":"é"}"#.parse()?;
/// assert_eq!(select("$.a[::-1]", &table)?.numbers(), [5, 4, 3]);
/// // The list has three elements, and the text one scalar value, in two bytes.
/// assert_eq!(select("$[?length(@) == 3]", &table)?.numbers(), [1]);
/// assert_eq!(select("$[?length(@) == 1]", &table)?.numbers(), [2]);
/// # Ok::<(), stewpebble::Error>(())
/// ```
pub fn select<'t>(query: &str, table: &'t Table) -> Result<Nodes<'t>, Refusal> {
    select_up_to(query, table, DEFAULT_LIMIT)
}

/// The same up to a limit of one's own. More nodes are refused as [`Refusal::LimitPassed`].
///
/// ```
/// use stewpebble::{select_up_to, Refusal, Table};
///
/// let table: Table = "[1,2,3]".parse()?;
/// assert_eq!(select_up_to("$[*]", &table, 3)?.len(), 3);
/// assert_eq!(select_up_to("$[*]", &table, 2).unwrap_err(), Refusal::LimitPassed { limit: 2 });
/// # Ok::<(), stewpebble::Error>(())
/// ```
pub fn select_up_to<'t>(query: &str, table: &'t Table, limit: usize) -> Result<Nodes<'t>, Refusal> {
    let given = Given { query: query.as_bytes(), ..table.given() };
    all_nodes(table, given, limit, |list| foreign::select(query.as_bytes(), table.records(), table.texts(), list, 0))
}

/// Selects into places that the caller lends, from the start position on; the number of nodes.
/// With [`Refusal::ListFull`] every place from the start position holds one of the first nodes.
///
/// ```
/// use stewpebble::{select_into, Table};
///
/// let table: Table = "[7,8]".parse()?;
/// let mut list = [0; 3];
/// assert_eq!(select_into("$[*]", &table, &mut list, 1)?, 2);
/// assert_eq!(list, [0, 1, 2]);
/// # Ok::<(), stewpebble::Error>(())
/// ```
pub fn select_into(query: &str, table: &Table, list: &mut [u32], start: usize) -> Result<usize, Refusal> {
    let given = Given { query: query.as_bytes(), places: list.len(), start, ..table.given() };
    foreign::select(query.as_bytes(), table.records(), table.texts(), list, start).map_err(|refused| Refusal::new(refused, given))
}

impl Plan {
    /// A plan and a pool as they were stored. Bytes that are the plan of no query are refused.
    ///
    /// ```
    /// use stewpebble::{Plan, Refusal};
    ///
    /// let plan: Plan = "$.a".parse().unwrap();
    /// let (bytes, pool) = plan.bytes();
    /// assert_eq!(Plan::from_bytes(bytes.to_vec(), pool.to_vec()), Ok(plan.clone()));
    /// assert_eq!(Plan::from_bytes(vec![1, 2, 3], vec![]), Err(Refusal::Plan));
    /// ```
    pub fn from_bytes(plan: Vec<u8>, pool: Vec<u8>) -> Result<Plan, Refusal> {
        foreign::check_plan(&plan, &pool).map_err(|refused| Refusal::new(refused, Given::default()))?;
        Ok(Plan { plan, pool })
    }

    /// The bytes of the plan and of the pool, for storing.
    ///
    /// ```
    /// let plan = stewpebble::compile("$.a").unwrap();
    /// assert_eq!(plan.bytes(), (&[0x01, 0x03, 1, 0, 0x05, 0, 0, 1, 0, 0x0A][..], &b"a"[..]));
    /// ```
    #[must_use]
    pub fn bytes(&self) -> (&[u8], &[u8]) {
        (&self.plan, &self.pool)
    }

    /// The items of the plan, each readable.
    ///
    /// ```
    /// let plan = stewpebble::compile("$.a[1]").unwrap();
    /// let words: Vec<String> = plan.items().map(|item| item.to_string()).collect();
    /// assert_eq!(words, ["query from $", "child, 1 selector", "name \"a\"", "child, 1 selector", "index 1", "end of the query"]);
    /// ```
    #[must_use]
    pub fn items(&self) -> Items<'_> {
        Items::new(&self.plan, &self.pool)
    }

    /// The nodes of a table that the query selects, in its order, with repeats, up to [`DEFAULT_LIMIT`].
    ///
    /// ```
    /// use stewpebble::{Plan, Table};
    ///
    /// let table: Table = r#"{"a":1,"b":[true]}"#.parse()?;
    /// let plan: Plan = "$..*".parse()?;
    /// let values: Vec<String> = plan.run(&table)?.map(|node| node.to_string()).collect();
    /// assert_eq!(values, ["1", "[true]", "true"]);
    /// # Ok::<(), stewpebble::Error>(())
    /// ```
    pub fn run<'t>(&self, table: &'t Table) -> Result<Nodes<'t>, Refusal> {
        self.run_up_to(table, DEFAULT_LIMIT)
    }

    /// The same up to a limit of one's own. More nodes are refused as [`Refusal::LimitPassed`], and never more memory is
    /// taken than for so many nodes, four bytes each.
    ///
    /// ```
    /// use stewpebble::{Plan, Refusal, Table};
    ///
    /// let table: Table = "[1,2,3]".parse()?;
    /// let plan: Plan = "$[*]".parse()?;
    /// assert_eq!(plan.run_up_to(&table, 2).unwrap_err(), Refusal::LimitPassed { limit: 2 });
    /// # Ok::<(), stewpebble::Error>(())
    /// ```
    pub fn run_up_to<'t>(&self, table: &'t Table, limit: usize) -> Result<Nodes<'t>, Refusal> {
        all_nodes(table, table.given(), limit, |list| foreign::run(&self.plan, &self.pool, table.records(), table.texts(), list, 0))
    }

    /// The same into places that the caller lends, from the start position on; the number of nodes. Nothing is allocated.
    /// With [`Refusal::ListFull`] every place from the start position holds one of the first nodes.
    ///
    /// ```
    /// use stewpebble::{Plan, Refusal, Table};
    ///
    /// let table: Table = "[7,8,9]".parse()?;
    /// let plan: Plan = "$[*]".parse()?;
    /// let mut list = [0; 3];
    /// assert_eq!(plan.run_into(&table, &mut list, 0)?, 3);
    /// assert_eq!(list, [1, 2, 3]);
    /// assert_eq!(plan.run_into(&table, &mut list, 1), Err(Refusal::ListFull { places: 2 }));
    /// # Ok::<(), stewpebble::Error>(())
    /// ```
    pub fn run_into(&self, table: &Table, list: &mut [u32], start: usize) -> Result<usize, Refusal> {
        let given = Given { places: list.len(), start, ..table.given() };
        foreign::run(&self.plan, &self.pool, table.records(), table.texts(), list, start).map_err(|refused| Refusal::new(refused, given))
    }
}

impl FromStr for Plan {
    type Err = Refusal;

    fn from_str(query: &str) -> Result<Plan, Refusal> {
        compile(query)
    }
}

/// Runs into a list that grows until all nodes have a place, up to the limit.
fn all_nodes<'t>(table: &'t Table, given: Given<'_>, limit: usize, mut run: impl FnMut(&mut [u32]) -> Result<usize, Refused>) -> Result<Nodes<'t>, Refusal> {
    let mut list = vec![0; FIRST_PLACES.min(limit)];
    loop {
        match run(&mut list).map_err(|refused| Refusal::new(refused, given)) {
            Ok(count) => {
                list.truncate(count);
                return Ok(Nodes::new(table, list));
            }
            Err(Refusal::ListFull { .. }) if list.len() < limit => {
                let places = list.len().saturating_mul(4).min(limit);
                list.clear();
                list.resize(places, 0);
            }
            Err(Refusal::ListFull { .. }) => return Err(Refusal::LimitPassed { limit }),
            Err(other) => return Err(other),
        }
    }
}
