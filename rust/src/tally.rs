//! What plans consist of.
use crate::refusal::Given;
use crate::{foreign, Plan, Refusal};

/// How often each kind occurs among the items of the plans that were taken, and how many plans that were.
///
/// ```
/// use stewpebble::{compile, Tally};
///
/// let mut tally = Tally::new();
/// tally.take(&compile("$.a[1]").unwrap()).unwrap();
/// assert_eq!(tally.count(0x03), 2);
/// assert_eq!(tally.items(), 6);
/// assert_eq!(tally.plans(), 1);
/// ```
#[derive(Clone, Debug, PartialEq, Eq)]
pub struct Tally {
    counts: [u64; 256],
    plans: u64,
}

impl Tally {
    /// Nothing was taken yet.
    ///
    /// ```
    /// assert_eq!(stewpebble::Tally::new().plans(), 0);
    /// ```
    #[must_use]
    pub fn new() -> Tally {
        Tally { counts: [0; 256], plans: 0 }
    }

    /// Takes a plan. With [`Refusal::CountFull`] nothing is counted.
    ///
    /// ```
    /// use stewpebble::{compile, Tally};
    ///
    /// let mut tally = Tally::new();
    /// tally.take(&compile("$[*]").unwrap()).unwrap();
    /// assert_eq!(tally.plans(), 1);
    /// ```
    pub fn take(&mut self, plan: &Plan) -> Result<(), Refusal> {
        let (items, texts) = plan.bytes();
        self.take_bytes(items, texts)
    }

    /// Takes a plan and a pool as they were stored. With a refusal nothing is counted.
    ///
    /// ```
    /// use stewpebble::{Refusal, Tally};
    ///
    /// let mut tally = Tally::new();
    /// assert_eq!(tally.take_bytes(&[0x01, 0x0A], &[]), Ok(()));
    /// assert_eq!(tally.take_bytes(&[0x01], &[]), Err(Refusal::Plan));
    /// assert_eq!(tally.plans(), 1);
    /// ```
    pub fn take_bytes(&mut self, plan: &[u8], pool: &[u8]) -> Result<(), Refusal> {
        foreign::tally(plan, pool, &mut self.counts, &mut self.plans).map_err(|refused| Refusal::new(refused, Given::default()))
    }

    /// How often a kind occurs, by its byte, which [`Item::kind`](crate::Item::kind) has.
    ///
    /// ```
    /// use stewpebble::{compile, Tally};
    ///
    /// let mut tally = Tally::new();
    /// tally.take(&compile("$[*,*]").unwrap()).unwrap();
    /// assert_eq!(tally.count(0x08), 2);
    /// ```
    #[must_use]
    pub fn count(&self, kind: u8) -> u64 {
        self.counts[usize::from(kind)]
    }

    /// How many items all plans have together.
    ///
    /// ```
    /// use stewpebble::{compile, Tally};
    ///
    /// let mut tally = Tally::new();
    /// tally.take(&compile("$").unwrap()).unwrap();
    /// assert_eq!(tally.items(), 2);
    /// ```
    #[must_use]
    pub fn items(&self) -> u128 {
        self.counts.iter().map(|&n| u128::from(n)).sum()
    }

    /// How many plans were taken.
    ///
    /// ```
    /// assert_eq!(stewpebble::Tally::default().plans(), 0);
    /// ```
    #[must_use]
    pub fn plans(&self) -> u64 {
        self.plans
    }
}

impl Default for Tally {
    fn default() -> Tally {
        Tally::new()
    }
}
