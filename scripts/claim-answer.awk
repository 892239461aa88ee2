# The answer to a net, worked out as document 01 says it, for scripts/claim.awk: proposals that the checker has to confirm, and no more.
# Arrays count from 0: tails, heads, costs (m arcs), order (n junctions), from, to (asked questions). CLOSED is the cost of a closed arc.

# contraction and customising, as document 01 says them: which positions are joined, and what each costs from one to the other
function rank_junctions(    p) { for (p = 0; p < n; p++) rank[order[p]] = p }
function join_by_arcs(    i, x, y) {
    for (i = 0; i < m; i++) if (tails[i] != heads[i]) {
        x = rank[tails[i]]; y = rank[heads[i]]
        joined[x, y] = joined[y, x] = 1
        cost[x, y] = costs[i]
        arc[x, y] = i
    }
}
function join_above(z,    x, y) {
    for (x = z + 1; x < n; x++)
        for (y = z + 1; y < n; y++)
            if (x != y && (z, x) in joined && (z, y) in joined) join_over(z, x, y)
}
function join_over(z, x, y,    sum) {
    joined[x, y] = 1
    if (cost_from(x, z) == CLOSED || cost_from(z, y) == CLOSED) return
    sum = cost[x, z] + cost[z, y]
    if (sum < cost_from(x, y)) cost[x, y] = sum
}
function cost_from(x, y) { return (x, y) in cost ? cost[x, y] : CLOSED }
function lay_out(    x, y) {
    E = 0
    for (x = 0; x < n; x++) {
        first[x] = E
        for (y = x + 1; y < n; y++) if ((x, y) in joined) {
            row[E] = y; up[E] = cost_from(x, y); down[E] = cost_from(y, x); E++
        }
    }
    first[n] = E
}

# labels from a position, with the position that each comes from: over edges upward, or downward towards a target
function label_from(s, upward, label, via,    p) {
    split("", label); split("", via)
    label[s] = 0
    for (p = s + 1; p < n; p++) label_one(p, s, upward, label, via)
}
function label_one(p, s, upward, label, via,    q, step) {
    for (q = s; q < p; q++) {
        step = upward ? cost_from(q, p) : cost_from(p, q)
        if (!(q in label) || !((q, p) in joined) || step == CLOSED) continue
        if (!(p in label) || label[q] + step < label[p]) { label[p] = label[q] + step; via[p] = q }
    }
}

# a piece opened into its arcs
function open_piece(a, b,    z) {
    if ((a, b) in arc && costs[arc[a, b]] == cost_from(a, b)) { driven = driven " " arc[a, b] + 1; arcs_driven++; return }
    for (z = 0; z < a && z < b; z++) {
        if (!((z, a) in joined) || !((z, b) in joined) || cost_from(a, z) == CLOSED || cost_from(z, b) == CLOSED) continue
        if (cost_from(a, z) + cost_from(z, b) == cost_from(a, b)) { open_piece(a, z); open_piece(z, b); return }
    }
}
function climb(s, p) { if (p != s) { climb(s, up_via[p]); open_piece(up_via[p], p) } }
function descend(p, t) { if (p != t) { open_piece(p, down_via[p]); descend(down_via[p], t) } }

# the lowest position at which the labels' sum is least, -1 if there is none
function meeting(    p, best) {
    best = -1
    for (p = 0; p < n; p++) {
        if (!(p in up_label) || !(p in down_label)) continue
        if (best < 0 || up_label[p] + down_label[p] < up_label[best] + down_label[best]) best = p
    }
    return best
}

# the rest of a question's line
function reply(u, v,    p) {
    if (u >= n || v >= n) return "refused 11"
    label_from(rank[u], 1, up_label, up_via)
    label_from(rank[v], 0, down_label, down_via)
    p = meeting()
    if (p < 0) return "none"
    driven = ""; arcs_driven = 0
    climb(rank[u], p); descend(p, rank[v])
    return up_label[p] + down_label[p] " " arcs_driven driven
}

# the refusal of a net, 0 if there is none
function arc_end_fault(    i) { for (i = 0; i < m; i++) if (tails[i] >= n || heads[i] >= n) return 1; return 0 }
function order_fault(    p, seen) { for (p = 0; p < n; p++) if (order[p] >= n || seen[order[p]]++) return 1; return 0 }
function cost_fault(    i) { for (i = 0; i < m; i++) if (costs[i] == 0 || (costs[i] > 500000 && costs[i] != CLOSED)) return 1; return 0 }
function refusal() { return n == 0 ? 1 : arc_end_fault() ? 3 : order_fault() ? 4 : cost_fault() ? 9 : 0 }

# the first line of the answer; the others stand in `worked`
function work_out(    z, i) {
    if (refusal()) return "refused " refusal()
    rank_junctions()
    join_by_arcs()
    for (z = 0; z < n; z++) join_above(z)
    lay_out()
    for (i = 1; i <= asked; i++) worked[i] = from[i - 1] + 1 " " to[i - 1] + 1 " " reply(from[i - 1], to[i - 1])
    return "edges " E
}
