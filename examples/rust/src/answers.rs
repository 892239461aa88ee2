//! The calls' answers as enums.

use slices::Told;
use std::fmt;

/// Why a call refuses, with the place where that isn't always 0.
#[derive(Clone, Copy, Debug, PartialEq, Eq)]
pub enum Refusal {
    /// 1: n is 0 or over 4,096.
    JunctionCount,
    /// 2: the arc lists differ in length or exceed 16,384.
    ArcLists,
    /// 3: an end of this arc is n or more.
    ArcEnd(u64),
    /// 4: the order's entry at this position is n or more, or was seen earlier.
    OrderEntry(u64),
    /// 5: the rank room isn't n long or the first room isn't n + 1.
    RankOrFirstRoom,
    /// 6: the heads room is shorter than E.
    HeadsRoom,
    /// 7: the lists aren't a hierarchy.
    NotAHierarchy,
    /// 8: this arc, with unequal ends, has no edge.
    ArcWithoutEdge(u64),
    /// 9: the cost of this arc is 0, or over 500,000 and not CLOSED.
    ArcCost(u64),
    /// 10: the up or the down list is shorter than E.
    CostLists,
    /// 11: the start or the target is n or more.
    StartOrTarget,
    /// 12: an arc of the route has no place left.
    RouteRoom,
    /// 13: a piece has neither a fitting arc nor a fitting z.
    PieceFitsNothing,
    /// 15: the distance list isn't n long.
    DistanceRoom,
    /// 16: the distance of this junction is CLOSED or more.
    TooFar(u64),
    /// 17: no arc has the number given.
    ArcNumber,
    /// A number that include/griezmuld.h doesn't have.
    Unheard {
        /// The number told.
        number: u32,
        /// The place told.
        place: u64,
    },
}

impl Refusal {
    fn new(number: u32, place: u64) -> Refusal {
        match number {
            1 => Refusal::JunctionCount,
            2 => Refusal::ArcLists,
            3 => Refusal::ArcEnd(place),
            4 => Refusal::OrderEntry(place),
            5 => Refusal::RankOrFirstRoom,
            6 => Refusal::HeadsRoom,
            7 => Refusal::NotAHierarchy,
            8 => Refusal::ArcWithoutEdge(place),
            9 => Refusal::ArcCost(place),
            10 => Refusal::CostLists,
            11 => Refusal::StartOrTarget,
            12 => Refusal::RouteRoom,
            13 => Refusal::PieceFitsNothing,
            15 => Refusal::DistanceRoom,
            16 => Refusal::TooFar(place),
            17 => Refusal::ArcNumber,
            _ => Refusal::Unheard { number, place },
        }
    }

    /// The number that include/griezmuld.h gives it.
    pub fn number(self) -> u32 {
        match self {
            Refusal::JunctionCount => 1,
            Refusal::ArcLists => 2,
            Refusal::ArcEnd(_) => 3,
            Refusal::OrderEntry(_) => 4,
            Refusal::RankOrFirstRoom => 5,
            Refusal::HeadsRoom => 6,
            Refusal::NotAHierarchy => 7,
            Refusal::ArcWithoutEdge(_) => 8,
            Refusal::ArcCost(_) => 9,
            Refusal::CostLists => 10,
            Refusal::StartOrTarget => 11,
            Refusal::RouteRoom => 12,
            Refusal::PieceFitsNothing => 13,
            Refusal::DistanceRoom => 15,
            Refusal::TooFar(_) => 16,
            Refusal::ArcNumber => 17,
            Refusal::Unheard { number, .. } => number,
        }
    }

    /// The place of the fault: an arc, a position, a junction, or 0.
    pub fn place(self) -> u64 {
        match self {
            Refusal::ArcEnd(place)
            | Refusal::OrderEntry(place)
            | Refusal::ArcWithoutEdge(place)
            | Refusal::ArcCost(place)
            | Refusal::TooFar(place)
            | Refusal::Unheard { place, .. } => place,
            _ => 0,
        }
    }
}

/// The words of griezmuld_refusal_text in include/griezmuld.h.
impl fmt::Display for Refusal {
    fn fmt(&self, words: &mut fmt::Formatter) -> fmt::Result {
        words.write_str(match self {
            Refusal::JunctionCount => "n is 0 or over 4,096",
            Refusal::ArcLists => "the arc lists differ in length or exceed 16,384",
            Refusal::ArcEnd(_) => "an arc end is n or more",
            Refusal::OrderEntry(_) => "an order entry is n or more, or was seen earlier",
            Refusal::RankOrFirstRoom => "rank isn't n long, or first isn't n + 1 long",
            Refusal::HeadsRoom => "row_heads is shorter than E",
            Refusal::NotAHierarchy => "rank, first and row_heads aren't a hierarchy for this order",
            Refusal::ArcWithoutEdge(_) => "an arc with unequal ends has no edge",
            Refusal::ArcCost(_) => "an arc cost is 0, or over 500,000 and not closed",
            Refusal::CostLists => "up or down is shorter than E",
            Refusal::StartOrTarget => "from or to is n or more",
            Refusal::RouteRoom => "an arc of the route has no place left",
            Refusal::PieceFitsNothing => {
                "a piece of the route fits neither an arc nor two lower pieces"
            }
            Refusal::DistanceRoom => "distances isn't n long",
            Refusal::TooFar(_) => "a distance is 4,294,967,295 or more",
            Refusal::ArcNumber => "no arc has the number given",
            Refusal::Unheard { .. } => "no refusal has this number",
        })
    }
}

/// What build answers.
#[derive(Clone, Copy, Debug, PartialEq, Eq)]
pub enum Built {
    /// E.
    Edges(u64),
    /// Why not.
    Refused(Refusal),
}

/// What a call answers that fills lists: customise, and the sweeps.
#[derive(Clone, Copy, Debug, PartialEq, Eq)]
pub enum Filled {
    /// The lists stand.
    Done,
    /// Why not.
    Refused(Refusal),
}

/// What change answers.
#[derive(Clone, Copy, Debug, PartialEq, Eq)]
pub enum Changed {
    /// The lists stand; so many lower triangles of reconsidered edges were looked at.
    Triangles(u64),
    /// Why not.
    Refused(Refusal),
}

/// What distance answers.
#[derive(Clone, Copy, Debug, PartialEq, Eq)]
pub enum Distance {
    /// Tenths of a second.
    Tenths(u64),
    /// No walk leads there.
    NoWalk,
    /// Why not.
    Refused(Refusal),
}

/// What route answers.
#[derive(Clone, Copy, Debug, PartialEq, Eq)]
pub enum Route {
    /// The distance, and how many arcs the route list holds.
    Drive {
        /// Tenths of a second.
        distance: u64,
        /// The number of arcs.
        arcs: u64,
    },
    /// No walk leads there.
    NoWalk,
    /// Why not.
    Refused(Refusal),
}

impl From<Told> for Built {
    fn from(told: Told) -> Built {
        match told.number {
            0 => Built::Edges(told.edges),
            number => Built::Refused(Refusal::new(number, told.place)),
        }
    }
}

impl From<Told> for Filled {
    fn from(told: Told) -> Filled {
        match told.number {
            0 => Filled::Done,
            number => Filled::Refused(Refusal::new(number, told.place)),
        }
    }
}

impl From<Told> for Changed {
    fn from(told: Told) -> Changed {
        match told.number {
            0 => Changed::Triangles(told.triangles),
            number => Changed::Refused(Refusal::new(number, told.place)),
        }
    }
}

impl From<Told> for Distance {
    fn from(told: Told) -> Distance {
        match (told.number, told.distance) {
            (0, u64::MAX) => Distance::NoWalk,
            (0, distance) => Distance::Tenths(distance),
            (number, _) => Distance::Refused(Refusal::new(number, told.place)),
        }
    }
}

impl From<Told> for Route {
    fn from(told: Told) -> Route {
        match (told.number, told.distance) {
            (0, u64::MAX) => Route::NoWalk,
            (0, distance) => Route::Drive {
                distance,
                arcs: told.arcs,
            },
            (number, _) => Route::Refused(Refusal::new(number, told.place)),
        }
    }
}
