//! "A set of lists is a hierarchy when ..", each clause on its own.

/// Whether lists are a hierarchy. The order has been found good.
pub fn is_hierarchy(order: &[u32], rank: &[u32], first: &[u32], heads: &[u32]) -> bool {
    let n = order.len();
    rank_inverts(order, rank)
        && first_rises(n, first)
        && first[n] as usize <= heads.len()
        && (0..n).all(|p| row_ascends(p, n, row(first, heads, p)))
        && (0..n).all(|p| rest_is_in_parents_row(first, heads, p))
}

/// "row p occupying places first[p] up to but not including first[p + 1]"
pub fn row<'a>(first: &[u32], heads: &'a [u32], p: usize) -> &'a [u32] {
    &heads[first[p] as usize..first[p + 1] as usize]
}

/// "the rank list has length n and inverts the order"
fn rank_inverts(order: &[u32], rank: &[u32]) -> bool {
    rank.len() == order.len() && (0..order.len()).all(|p| rank[order[p] as usize] as usize == p)
}

/// "first has length n + 1, starts with 0 and never falls"
fn first_rises(n: usize, first: &[u32]) -> bool {
    first.len() == n + 1 && first[0] == 0 && (0..n).all(|p| first[p] <= first[p + 1])
}

/// "each row is strictly ascending, above its position and below n"
fn row_ascends(p: usize, n: usize, row: &[u32]) -> bool {
    row.iter().all(|&q| p < q as usize && (q as usize) < n)
        && row.windows(2).all(|pair| pair[0] < pair[1])
}

/// "every entry of a row but its first stands in the parent's row too"
fn rest_is_in_parents_row(first: &[u32], heads: &[u32], p: usize) -> bool {
    let row_of_p = row(first, heads, p);
    match row_of_p.iter().min() {
        None => true,
        Some(&parent) => {
            let parents_row = row(first, heads, parent as usize);
            row_of_p[1..].iter().all(|q| parents_row.contains(q))
        }
    }
}
