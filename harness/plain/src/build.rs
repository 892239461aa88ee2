//! Build: contraction into lent room.

use crate::{checks, Refusal, END, MOST_ARCS, MOST_JUNCTIONS};

/// Writes the rank list and the shortcut graph, and replies E.
pub fn build(
    tails: &[u32],
    heads: &[u32],
    order: &[u32],
    rank: &mut [u32],
    first: &mut [u32],
    row_heads: &mut [u32],
) -> Result<usize, Refusal> {
    let n = order.len();
    checks::junctions(n)?;
    checks::two_lists(tails, heads)?;
    checks::arc_ends(n, tails, heads)?;
    checks::order(order)?;
    if rank.len() != n || first.len() != n + 1 {
        return Err(Refusal::RankOrFirstRoom);
    }
    for (&junction, position) in order.iter().zip(0..) {
        rank[junction as usize] = position;
    }
    match contract(tails, heads, rank, first, row_heads) {
        Some(edges) => {
            row_heads[edges..].fill(0);
            Ok(edges)
        }
        None => {
            rank.fill(0);
            first.fill(0);
            row_heads.fill(0);
            Err(Refusal::HeadsRoom)
        }
    }
}

/// A set of positions that is emptied in ascending order: a bit for each, and a bit for each word that isn't 0.
struct Marks {
    words: [u64; 64],
    filled: u64,
}

impl Marks {
    fn set(&mut self, p: u32) {
        let word = (p >> 6) as usize & 63;
        self.words[word] |= 1 << (p & 63);
        self.filled |= 1 << word;
    }

    /// Writes the set from a place on and leaves it empty; the place after it, or none if it doesn't fit.
    fn empty_into(&mut self, room: &mut [u32], mut place: usize) -> Option<usize> {
        while self.filled != 0 {
            let word = self.filled.trailing_zeros();
            self.filled &= self.filled - 1;
            let mut bits = std::mem::take(&mut self.words[word as usize & 63]);
            while bits != 0 {
                *room.get_mut(place)? = word * 64 + bits.trailing_zeros();
                place += 1;
                bits &= bits - 1;
            }
        }
        Some(place)
    }
}

/// Row p holds the higher ends of the arcs at p, and what the rows of p's children hold above p.
fn contract(
    tails: &[u32],
    heads: &[u32],
    rank: &[u32],
    first: &mut [u32],
    row_heads: &mut [u32],
) -> Option<usize> {
    // arcs by their lower end, and positions by their parent, each as chains of indices
    let mut last_arc = [END; MOST_JUNCTIONS];
    let mut earlier_arc = [END; MOST_ARCS];
    let mut higher_end = [0u16; MOST_ARCS];
    for (arc, (&tail, &head)) in tails.iter().zip(heads).enumerate() {
        let (a, b) = (rank[tail as usize], rank[head as usize]);
        if a != b {
            let low = a.min(b) as usize;
            higher_end[arc] = a.max(b) as u16;
            earlier_arc[arc] = last_arc[low];
            last_arc[low] = arc as u16;
        }
    }
    let mut last_child = [END; MOST_JUNCTIONS];
    let mut earlier_child = [END; MOST_JUNCTIONS];

    let mut marks = Marks {
        words: [0; 64],
        filled: 0,
    };
    let mut place = 0;
    first[0] = 0;
    for p in 0..rank.len() {
        let mut arc = last_arc[p];
        while arc != END {
            marks.set(u32::from(higher_end[arc as usize]));
            arc = earlier_arc[arc as usize];
        }
        let mut child = last_child[p];
        while child != END {
            let row = first[child as usize] as usize + 1..first[child as usize + 1] as usize;
            for &head in &row_heads[row] {
                marks.set(head);
            }
            child = earlier_child[child as usize];
        }
        let start = place;
        place = marks.empty_into(row_heads, place)?;
        first[p + 1] = place as u32;
        if start < place {
            let parent = row_heads[start] as usize;
            earlier_child[p] = last_child[parent];
            last_child[parent] = p as u16;
        }
    }
    Some(place)
}
