/*
 * A driver closes a road of N4, the worked example of document 01, and opens it again: each time one call changes the
 * arc's cost and the shortcut costs with it, and the questions are asked anew. What customise would leave for the same
 * costs is compared. See run, beside this file.
 */
#include "griezmuld.h"

#include <inttypes.h>
#include <stdio.h>
#include <string.h>

enum { JUNCTIONS = 4, ARCS = 5, EDGES = 5 };

static const uint32_t tails[ARCS] = {1, 0, 2, 3, 1};
static const uint32_t heads[ARCS] = {0, 2, 3, 1, 3};
static uint32_t costs[ARCS] = {3, 4, 2, 6, 20};
static const uint32_t order[JUNCTIONS] = {0, 1, 2, 3};

/* The lists that build, customise and change write into, and a second pair of cost lists. */
static uint32_t rank[JUNCTIONS], first[JUNCTIONS + 1], row_heads[EDGES];
static uint32_t up[EDGES], down[EDGES];
static uint32_t up_afresh[EDGES], down_afresh[EDGES];

static void show(const char *name, const uint32_t *list, size_t length)
{
    printf("  %s:", name);
    for (size_t k = 0; k < length; k++) {
        if (list[k] == GRIEZMULD_CLOSED)
            printf(" -");
        else
            printf(" %" PRIu32, list[k]);
    }
    printf("\n");
}

static int refused(const char *call, uint32_t number, uint64_t place)
{
    if (number != GRIEZMULD_ACCEPTED)
        printf("%s: refused %" PRIu32 ", %s; place %" PRIu64 "\n", call, number, griezmuld_refusal_text(number), place);
    return number != GRIEZMULD_ACCEPTED;
}

static int customise(uint32_t *up_room, uint32_t *down_room)
{
    uint64_t place;
    uint32_t number = griezmuld_customise(
        tails, ARCS, heads, ARCS, costs, ARCS, order, JUNCTIONS, rank, JUNCTIONS, first, JUNCTIONS + 1,
        row_heads, EDGES, up_room, EDGES, down_room, EDGES, &place);
    return refused("customise", number, place);
}

/* Gives an arc another cost, and shows all that the call may write. */
static int change(uint32_t arc, uint32_t cost)
{
    uint64_t place, triangles;
    uint32_t number = griezmuld_change(
        tails, ARCS, heads, ARCS, costs, ARCS, order, JUNCTIONS, rank, JUNCTIONS, first, JUNCTIONS + 1,
        row_heads, EDGES, up, EDGES, down, EDGES, arc, cost, &place, &triangles);
    int failed = refused("change", number, place);
    if (!failed)
        printf("lower triangles looked at: %" PRIu64 "\n", triangles);
    show("costs", costs, ARCS);
    show("up", up, EDGES);
    show("down", down, EDGES);
    return failed;
}

/* Whether customise would leave other lists for these costs than stand there. */
static int differs(void)
{
    if (customise(up_afresh, down_afresh))
        return 1;
    return memcmp(up, up_afresh, sizeof up) != 0 || memcmp(down, down_afresh, sizeof down) != 0;
}

static int ask(uint32_t from, uint32_t to)
{
    uint32_t route[JUNCTIONS - 1];
    uint64_t place, distance, arcs;
    uint32_t number = griezmuld_route(
        tails, ARCS, heads, ARCS, costs, ARCS, order, JUNCTIONS, rank, JUNCTIONS, first, JUNCTIONS + 1,
        row_heads, EDGES, up, EDGES, down, EDGES, from, to, route, JUNCTIONS - 1, &place, &distance, &arcs);
    if (refused("route", number, place))
        return 1;
    printf("%" PRIu32 " to %" PRIu32 ": ", from, to);
    if (distance == GRIEZMULD_NO_WALK) {
        printf("none\n");
        return 0;
    }
    printf("%" PRIu64 ", %" PRIu64 " arcs:", distance, arcs);
    for (uint64_t k = 0; k < arcs; k++)
        printf(" %" PRIu32, route[k]);
    printf("\n");
    return 0;
}

int main(void)
{
    uint64_t place, edges;
    uint32_t number = griezmuld_build(
        tails, ARCS, heads, ARCS, order, JUNCTIONS, rank, JUNCTIONS, first, JUNCTIONS + 1,
        row_heads, EDGES, &place, &edges);
    if (refused("build", number, place) || customise(up, down))
        return 1;
    if (ask(0, 1) || ask(1, 3))
        return 1;

    printf("arc 2 is closed\n");
    if (change(2, GRIEZMULD_CLOSED) || differs() || ask(0, 1) || ask(1, 3))
        return 1;

    printf("arc 2 is open again\n");
    if (change(2, 2) || differs() || ask(0, 1) || ask(1, 3))
        return 1;

    printf("arc 2 is to cost nothing\n");
    return !change(2, 0) || differs();
}
