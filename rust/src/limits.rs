//! The limits of queries and tables, each in one place, and how numbers are written for people.
use core::fmt;

/// The bytes of a query.
pub const MAX_QUERY: usize = 4_096;
/// The brackets of a query that are open at once.
pub const MAX_BRACKETS: usize = 32;
/// The nodes of a table.
pub const MAX_NODES: usize = 65_535;
/// The depth of a node.
pub const MAX_DEPTH: u8 = 63;
/// The members of a map.
pub const MAX_MEMBERS: usize = 1_024;
/// The bytes of a table's texts.
pub const MAX_TEXT: usize = 16_777_216;
/// An index or a slice number of a query, and the count of a kind of plan item, or of plans.
pub const MAX_EXACT: u64 = (1 << 53) - 1;

/// A number with a comma before each three digits.
pub struct Grouped(pub u64);

impl fmt::Display for Grouped {
    fn fmt(&self, f: &mut fmt::Formatter<'_>) -> fmt::Result {
        if self.0 < 1_000 {
            return write!(f, "{}", self.0);
        }
        write!(f, "{},{:03}", Grouped(self.0 / 1_000), self.0 % 1_000)
    }
}

/// The same for a number of bytes, nodes or places.
pub fn grouped(n: usize) -> Grouped {
    Grouped(n as u64)
}

#[cfg(test)]
mod tests {
    use super::*;
    use crate::record::RECORD;
    use alloc::string::ToString;

    #[test]
    fn the_limits_are_those_of_the_header() {
        let header = include_str!("../../include/stewpebble.h");
        let depth = usize::from(MAX_DEPTH);
        for (name, limit) in [("QUERY", MAX_QUERY), ("NODES", MAX_NODES), ("DEPTH", depth), ("MEMBERS", MAX_MEMBERS), ("TEXT", MAX_TEXT)] {
            let define = alloc::format!("#define STEWPEBBLE_MAX_{name} {limit} ");
            assert!(header.contains(&define), "{define}");
        }
        assert!(header.contains(&alloc::format!("stewpebble_record_has_{RECORD}_bytes")));
    }

    #[test]
    fn numbers_for_people() {
        for (n, written) in [(0, "0"), (999, "999"), (1_000, "1,000"), (65_535, "65,535"), (1_000_000, "1,000,000"), (u64::MAX, "18,446,744,073,709,551,615")] {
            assert_eq!(Grouped(n).to_string(), written);
        }
    }
}
