//! Nets to run on: a reader of DIMACS files, synthetic counties, orders, and a seeded source of numbers.

pub mod county;
pub mod dimacs;
pub mod order;
pub mod source;
pub mod stored;

/// "CLOSED": the cost of a closed arc.
pub const CLOSED: u32 = 4_294_967_295;

/// A net, with the place of each junction on the map where that is known.
#[derive(Clone, Debug, Default, PartialEq, Eq)]
pub struct Net {
    /// The number of junctions.
    pub n: usize,
    /// The arcs' tails.
    pub tails: Vec<u32>,
    /// The arcs' heads.
    pub heads: Vec<u32>,
    /// The arcs' costs.
    pub costs: Vec<u32>,
    /// How far east each junction lies.
    pub east: Vec<i32>,
    /// How far north each junction lies.
    pub north: Vec<i32>,
}

impl Net {
    /// Adds an arc.
    pub fn arc(&mut self, tail: u32, head: u32, cost: u32) {
        self.tails.push(tail);
        self.heads.push(head);
        self.costs.push(cost);
    }
}
