//! "The shortcut graph", by the paper's game on a matrix, and the same matrix read off a hierarchy's lists.

/// The number that a matrix entry holds where two positions aren't joined.
const APART: u32 = u32::MAX;

/// Which positions are joined, and at which place each edge stands.
pub struct Graph {
    n: usize,
    edges: usize,
    /// For each pair of positions, either way round: the edge's place, or APART.
    places: Vec<u32>,
}

impl Graph {
    /// "Join two positions if some arc, of any cost, runs between their junctions either way. Then, for each position
    /// from 0 upward, join all its higher neighbours to one another."
    pub fn by_the_game(order: &[u32], tails: &[u32], heads: &[u32]) -> Graph {
        let n = order.len();
        let mut position = vec![0; n];
        for (p, &junction) in order.iter().enumerate() {
            position[junction as usize] = p;
        }
        let mut joined = vec![false; n * n];
        for (&tail, &head) in tails.iter().zip(heads) {
            let (a, b) = (position[tail as usize], position[head as usize]);
            if a != b {
                joined[a * n + b] = true;
                joined[b * n + a] = true;
            }
        }
        for p in 0..n {
            let higher: Vec<usize> = (p + 1..n).filter(|&q| joined[p * n + q]).collect();
            for &a in &higher {
                for &b in &higher {
                    if a != b {
                        joined[a * n + b] = true;
                    }
                }
            }
        }
        Graph::with_places(n, |x, y| joined[x * n + y])
    }

    /// The graph that first and heads say, where they are those of a hierarchy.
    pub fn of_lists(n: usize, first: &[u32], heads: &[u32]) -> Graph {
        let mut joined = vec![false; n * n];
        for p in 0..n {
            for place in first[p]..first[p + 1] {
                joined[p * n + heads[place as usize] as usize] = true;
            }
        }
        Graph::with_places(n, |x, y| joined[x * n + y])
    }

    /// Edges take their places row by row, each row ascending.
    fn with_places(n: usize, joined: impl Fn(usize, usize) -> bool) -> Graph {
        let mut places = vec![APART; n * n];
        let mut edges = 0;
        for x in 0..n {
            for y in x + 1..n {
                if joined(x, y) {
                    places[x * n + y] = edges;
                    places[y * n + x] = edges;
                    edges += 1;
                }
            }
        }
        Graph {
            n,
            edges: edges as usize,
            places,
        }
    }

    /// The number of positions.
    pub fn size(&self) -> usize {
        self.n
    }

    /// "E counts the joined pairs."
    pub fn edges(&self) -> usize {
        self.edges
    }

    /// The place of the edge between two positions, if they are joined.
    pub fn place(&self, a: usize, b: usize) -> Option<usize> {
        match self.places[a * self.n + b] {
            APART => None,
            place => Some(place as usize),
        }
    }

    /// Whether two positions are joined.
    pub fn joined(&self, a: usize, b: usize) -> bool {
        self.places[a * self.n + b] != APART
    }

    /// "the row of position p lists its higher neighbours in ascending order"
    pub fn row(&self, p: usize) -> Vec<u32> {
        (p + 1..self.n)
            .filter(|&q| self.joined(p, q))
            .map(|q| q as u32)
            .collect()
    }

    /// The list of heads: the rows one after the other.
    pub fn heads(&self) -> Vec<u32> {
        (0..self.n).flat_map(|p| self.row(p)).collect()
    }

    /// "first" has n + 1 entries, row p occupying places first[p] up to but not including first[p + 1].
    pub fn first(&self) -> Vec<u32> {
        let mut first = vec![0];
        for p in 0..self.n {
            first.push(first[p] + self.row(p).len() as u32);
        }
        first
    }
}
