//! What the calls get and write, as structs of slices, and the numbers that they tell: each list is named once, here.
//!
//! Build gets [`Arcs`] and the order, and writes a [`GraphRoom`]. Customise gets [`Roads`] and the [`Graph`], and
//! writes a [`CostRoom`]; change gets a [`RoadRoom`], and writes the arcs' costs too. Distance gets the graph and its [`Costs`]; route gets the roads too, and writes a route list;
//! the sweeps get what distance gets, with one junction and a [`Way`], and write a distance list.

#![forbid(unsafe_code)]

/// The arcs without their costs, for which build doesn't ask.
#[derive(Clone, Copy)]
pub struct Arcs<'a> {
    /// The arcs' tails.
    pub tails: &'a [u32],
    /// The arcs' heads.
    pub heads: &'a [u32],
}

/// The arcs with their costs.
#[derive(Clone, Copy)]
pub struct Roads<'a> {
    /// The arcs.
    pub arcs: Arcs<'a>,
    /// The arcs' costs.
    pub costs: &'a [u32],
}

/// The arcs with their costs, of which change writes one.
pub struct RoadRoom<'a> {
    /// The arcs.
    pub arcs: Arcs<'a>,
    /// The arcs' costs.
    pub costs: &'a mut [u32],
}

/// The order and what build wrote for it.
#[derive(Clone, Copy)]
pub struct Graph<'a> {
    /// The order.
    pub order: &'a [u32],
    /// The rank list.
    pub rank: &'a [u32],
    /// Where each row starts.
    pub first: &'a [u32],
    /// The rows.
    pub row_heads: &'a [u32],
}

/// What build writes.
pub struct GraphRoom<'a> {
    /// The rank list.
    pub rank: &'a mut [u32],
    /// Where each row starts.
    pub first: &'a mut [u32],
    /// The rows.
    pub row_heads: &'a mut [u32],
}

/// The costs on the graph.
#[derive(Clone, Copy)]
pub struct Costs<'a> {
    /// The up costs.
    pub up: &'a [u32],
    /// The down costs.
    pub down: &'a [u32],
}

/// What customise writes, and change in part.
pub struct CostRoom<'a> {
    /// The up costs.
    pub up: &'a mut [u32],
    /// The down costs.
    pub down: &'a mut [u32],
}

/// Which of the two sweeps: where the junction given stands in the pairs whose distances are listed.
#[derive(Clone, Copy, Debug, PartialEq, Eq)]
pub enum Way {
    /// From the junction to every one.
    From,
    /// From every junction to it.
    To,
}

/// The numbers that a call tells. Those that it doesn't tell are 0.
#[derive(Clone, Copy, Debug, Default, PartialEq, Eq)]
pub struct Told {
    /// The refusal's number, 0 when accepted.
    pub number: u32,
    /// The refusal's place, 0 when accepted.
    pub place: u64,
    /// E, by build; 0 after a refusal.
    pub edges: u64,
    /// The distance, by distance and route: u64::MAX for "none", 0 after a refusal.
    pub distance: u64,
    /// The number of arcs, by route: 0 for "none" and after a refusal.
    pub arcs: u64,
    /// How many lower triangles of reconsidered edges were looked at, by change; 0 after a refusal.
    pub triangles: u64,
}
