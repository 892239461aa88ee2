//! Why a call refuses.

/// A case for each number, with the place where that isn't always 0.
#[derive(Clone, Copy, Debug, PartialEq, Eq)]
pub enum Refusal {
    /// 1
    JunctionCount,
    /// 2
    ArcLists,
    /// 3
    ArcEnd(usize),
    /// 4
    OrderEntry(usize),
    /// 5
    RankOrFirstRoom,
    /// 6
    HeadsRoom,
    /// 7
    NotAHierarchy,
    /// 8
    ArcWithoutEdge(usize),
    /// 9
    ArcCost(usize),
    /// 10
    CostLists,
    /// 11
    StartOrTarget,
    /// 12
    RouteRoom,
    /// 13
    PieceFitsNothing,
    /// 15
    DistanceRoom,
    /// 16
    TooFar(usize),
    /// 17
    ArcNumber,
}

impl Refusal {
    /// The refusal's number.
    pub fn number(self) -> u32 {
        match self {
            Refusal::JunctionCount => 1,
            Refusal::ArcLists => 2,
            Refusal::ArcEnd(_) => 3,
            Refusal::OrderEntry(_) => 4,
            Refusal::RankOrFirstRoom => 5,
            Refusal::HeadsRoom => 6,
            Refusal::NotAHierarchy => 7,
            Refusal::ArcWithoutEdge(_) => 8,
            Refusal::ArcCost(_) => 9,
            Refusal::CostLists => 10,
            Refusal::StartOrTarget => 11,
            Refusal::RouteRoom => 12,
            Refusal::PieceFitsNothing => 13,
            Refusal::DistanceRoom => 15,
            Refusal::TooFar(_) => 16,
            Refusal::ArcNumber => 17,
        }
    }

    /// The refusal's place.
    pub fn place(self) -> usize {
        match self {
            Refusal::ArcEnd(place)
            | Refusal::OrderEntry(place)
            | Refusal::ArcWithoutEdge(place)
            | Refusal::ArcCost(place)
            | Refusal::TooFar(place) => place,
            _ => 0,
        }
    }
}
