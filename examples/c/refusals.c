/*
 * Every refusal, brought about by a call: holds what the call returns to the header's name and place of it, holds the
 * lists to what they were where the header says so, and prints each number with its words. See run, beside this file.
 */
#include "griezmuld.h"

#include <inttypes.h>
#include <stdio.h>
#include <string.h>

enum { JUNCTIONS = 3, ARCS = 2, EDGES = 2, OTHER = 18 };

/* All lists of a net, and the lengths that some call is to be told wrongly. */
struct lists {
    uint32_t tails[ARCS], heads[ARCS], costs[ARCS], order[JUNCTIONS];
    uint32_t rank[JUNCTIONS], first[JUNCTIONS + 1], row_heads[EDGES], up[EDGES], down[EDGES];
    uint32_t route[ARCS], distances[JUNCTIONS];
    size_t tails_length, order_length, rank_length, row_heads_length, up_length, route_length, distances_length;
    uint32_t from, to, arc, cost;
};

/* Junction 0 to 1 to 2, one way, with its graph and costs: every call accepts it. */
static const struct lists road = {
    {0, 1}, {1, 2}, {120, 150}, {0, 1, 2},
    {0, 1, 2}, {0, 1, 2, 2}, {1, 2}, {120, 150}, {GRIEZMULD_CLOSED, GRIEZMULD_CLOSED},
    {0, 0}, {0, 0, 0},
    ARCS, JUNCTIONS, JUNCTIONS, EDGES, EDGES, ARCS, JUNCTIONS,
    0, 2, 1, GRIEZMULD_CLOSED};

enum call { BUILD, CUSTOMISE, CHANGE, DISTANCE, SWEEP_FROM, SWEEP_TO, ROUTE, CALLS };

static uint32_t run(enum call call, struct lists *l, uint64_t *place)
{
    uint64_t number, arcs;
    switch (call) {
    case BUILD:
        return griezmuld_build(
            l->tails, l->tails_length, l->heads, ARCS, l->order, l->order_length, l->rank, l->rank_length,
            l->first, JUNCTIONS + 1, l->row_heads, l->row_heads_length, place, &number);
    case CUSTOMISE:
        return griezmuld_customise(
            l->tails, l->tails_length, l->heads, ARCS, l->costs, ARCS, l->order, l->order_length, l->rank, l->rank_length,
            l->first, JUNCTIONS + 1, l->row_heads, l->row_heads_length, l->up, l->up_length, l->down, EDGES, place);
    case CHANGE:
        return griezmuld_change(
            l->tails, l->tails_length, l->heads, ARCS, l->costs, ARCS, l->order, l->order_length, l->rank, l->rank_length,
            l->first, JUNCTIONS + 1, l->row_heads, l->row_heads_length, l->up, l->up_length, l->down, EDGES,
            l->arc, l->cost, place, &number);
    case DISTANCE:
        return griezmuld_distance(
            l->order, l->order_length, l->rank, l->rank_length, l->first, JUNCTIONS + 1,
            l->row_heads, l->row_heads_length, l->up, l->up_length, l->down, EDGES, l->from, l->to, place, &number);
    case SWEEP_FROM:
    case SWEEP_TO:
        return (call == SWEEP_FROM ? griezmuld_sweep_from : griezmuld_sweep_to)(
            l->order, l->order_length, l->rank, l->rank_length, l->first, JUNCTIONS + 1,
            l->row_heads, l->row_heads_length, l->up, l->up_length, l->down, EDGES,
            call == SWEEP_FROM ? l->from : l->to, l->distances, l->distances_length, place);
    default:
        return griezmuld_route(
            l->tails, l->tails_length, l->heads, ARCS, l->costs, ARCS, l->order, l->order_length, l->rank, l->rank_length,
            l->first, JUNCTIONS + 1, l->row_heads, l->row_heads_length, l->up, l->up_length, l->down, EDGES,
            l->from, l->to, l->route, l->route_length, place, &number, &arcs);
    }
}

/* Plants the fault of a refusal, and says by which call it is refused. */
static enum call spoil(struct lists *l, enum griezmuld_refusal fault)
{
    switch (fault) {
    case GRIEZMULD_REFUSED_JUNCTION_COUNT: l->order_length = 0; return BUILD;
    case GRIEZMULD_REFUSED_ARC_LISTS: l->tails_length = ARCS - 1; return BUILD;
    case GRIEZMULD_REFUSED_ARC_END: l->heads[1] = JUNCTIONS; return BUILD;
    case GRIEZMULD_REFUSED_ORDER_ENTRY: l->order[2] = 0; return BUILD;
    case GRIEZMULD_REFUSED_RANK_OR_FIRST_ROOM: l->rank_length = JUNCTIONS - 1; return BUILD;
    case GRIEZMULD_REFUSED_HEADS_ROOM: l->row_heads_length = EDGES - 1; return BUILD;
    case GRIEZMULD_REFUSED_NOT_A_HIERARCHY: l->row_heads[1] = 1; return DISTANCE;
    case GRIEZMULD_REFUSED_ARC_WITHOUT_EDGE: l->first[2] = l->first[3] = 1; return CUSTOMISE;
    case GRIEZMULD_REFUSED_ARC_COST: l->costs[1] = 0; return CUSTOMISE;
    case GRIEZMULD_REFUSED_COST_LISTS: l->up_length = EDGES - 1; return CUSTOMISE;
    case GRIEZMULD_REFUSED_START_OR_TARGET: l->to = JUNCTIONS; return SWEEP_TO;
    case GRIEZMULD_REFUSED_ROUTE_ROOM: l->route_length = ARCS - 1; return ROUTE;
    case GRIEZMULD_REFUSED_PIECE_FITS_NOTHING: l->costs[0] = 121; return ROUTE;
    case GRIEZMULD_REFUSED_DISTANCE_ROOM: l->distances_length = JUNCTIONS - 1; return SWEEP_FROM;
    case GRIEZMULD_REFUSED_TOO_FAR: l->up[0] = GRIEZMULD_CLOSED - 1; return SWEEP_FROM;
    case GRIEZMULD_REFUSED_ARC_NUMBER: l->arc = ARCS; return CHANGE;
    default: return CALLS;
    }
}

/* The place of the fault that spoil plants: the last arc, position or junction; 0 where the header gives no place. */
static uint64_t place_of(enum griezmuld_refusal fault)
{
    switch (fault) {
    case GRIEZMULD_REFUSED_ARC_END:
    case GRIEZMULD_REFUSED_ARC_WITHOUT_EDGE:
    case GRIEZMULD_REFUSED_ARC_COST: return ARCS - 1;
    case GRIEZMULD_REFUSED_ORDER_ENTRY:
    case GRIEZMULD_REFUSED_TOO_FAR: return JUNCTIONS - 1;
    default: return 0;
    }
}

/* Whether after this refusal every list is as it was. */
static int leaves_lists(enum griezmuld_refusal fault)
{
    switch (fault) {
    case GRIEZMULD_ACCEPTED:
    case GRIEZMULD_REFUSED_HEADS_ROOM:
    case GRIEZMULD_REFUSED_ROUTE_ROOM:
    case GRIEZMULD_REFUSED_PIECE_FITS_NOTHING:
    case GRIEZMULD_REFUSED_TOO_FAR: return 0;
    default: return 1;
    }
}

/* Whether a call on lists with a fault returns another number or place than it has to, or writes to a list that it may not. */
static int wrong(enum call call, struct lists lists, enum griezmuld_refusal fault)
{
    struct lists before = lists;
    uint64_t place;
    uint32_t number = run(call, &lists, &place);
    if (number != (uint32_t)fault || place != place_of(fault)) {
        printf("expected %d, place %" PRIu64 "; found %" PRIu32 ", place %" PRIu64 "\n", (int)fault, place_of(fault), number, place);
        return 1;
    }
    size_t all = offsetof(struct lists, distances) + sizeof lists.distances;
    if (leaves_lists(fault) && memcmp(&lists, &before, all) != 0) {
        printf("a list is not as it was after %d\n", (int)fault);
        return 1;
    }
    return 0;
}

/* Whether a refusal of change is not as it has to be: a new cost that is too dear or nothing, and what comes before it. */
static int wrong_change(void)
{
    struct lists spoilt = road;
    spoilt.cost = GRIEZMULD_GREATEST_COST + 1;
    int failed = wrong(CHANGE, spoilt, GRIEZMULD_REFUSED_ARC_COST);
    spoilt.cost = 0;
    failed |= wrong(CHANGE, spoilt, GRIEZMULD_REFUSED_ARC_COST);
    spoilt.arc = ARCS;
    failed |= wrong(CHANGE, spoilt, GRIEZMULD_REFUSED_ARC_NUMBER);
    spoilt.costs[1] = 0;
    failed |= wrong(CHANGE, spoilt, GRIEZMULD_REFUSED_ARC_COST);
    return failed;
}

int main(void)
{
    int failed = 0;
    for (int call = BUILD; call < CALLS; call++)
        failed |= wrong((enum call)call, road, GRIEZMULD_ACCEPTED);
    for (uint32_t number = 0; number <= OTHER; number++) {
        struct lists spoilt = road;
        enum call call = spoil(&spoilt, (enum griezmuld_refusal)number);
        if (call != CALLS)
            failed |= wrong(call, spoilt, (enum griezmuld_refusal)number);
        printf("%" PRIu32 ": %s\n", number, griezmuld_refusal_text(number));
    }
    return failed | wrong_change();
}
