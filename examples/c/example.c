/*
 * N4, the worked example of document 01: builds the graph, customises it, asks for some distances and routes, prints a
 * dairy's list of farms, then closes an arc, customises with the new list of costs and asks again. closure.c changes the
 * one cost instead. See run, beside this file.
 */
#include "griezmuld.h"

#include <inttypes.h>
#include <stdio.h>

enum { JUNCTIONS = 4, ARCS = 5, EDGES = 6 };

static const uint32_t tails[ARCS] = {1, 0, 2, 3, 1};
static const uint32_t heads[ARCS] = {0, 2, 3, 1, 3};
static uint32_t costs[ARCS] = {3, 4, 2, 6, 20};
static const uint32_t order[JUNCTIONS] = {0, 1, 2, 3};

/* The rooms that the calls write into: everything here is ours. */
static uint32_t rank[JUNCTIONS], first[JUNCTIONS + 1], row_heads[EDGES];
static uint32_t up[EDGES], down[EDGES];
static uint32_t route[JUNCTIONS - 1];
static uint32_t there[JUNCTIONS], back[JUNCTIONS];

static void show(const char *name, const uint32_t *list, size_t length)
{
    printf("  %s:", name);
    for (size_t k = 0; k < length; k++) {
        if (list[k] == GRIEZMULD_CLOSED)
            printf(" -");
        else
            printf(" %" PRIu32, list[k]);
    }
    printf("\n");
}

/* Says why a call refused, and whether it did. */
static int refused(const char *call, uint32_t number, uint64_t place)
{
    if (number != 0)
        printf("%s: refused %" PRIu32 ", place %" PRIu64 "\n", call, number, place);
    return number != 0;
}

static int customise(void)
{
    uint64_t place;
    uint32_t number = griezmuld_customise(
        tails, ARCS, heads, ARCS, costs, ARCS, order, JUNCTIONS, rank, JUNCTIONS, first, JUNCTIONS + 1,
        row_heads, EDGES, up, EDGES, down, EDGES, &place);
    return refused("customise", number, place);
}

static int ask(uint32_t from, uint32_t to)
{
    uint64_t place, distance, drive, arcs;
    uint32_t number = griezmuld_distance(
        order, JUNCTIONS, rank, JUNCTIONS, first, JUNCTIONS + 1, row_heads, EDGES, up, EDGES, down, EDGES,
        from, to, &place, &distance);
    if (refused("distance", number, place))
        return 1;
    number = griezmuld_route(
        tails, ARCS, heads, ARCS, costs, ARCS, order, JUNCTIONS, rank, JUNCTIONS, first, JUNCTIONS + 1,
        row_heads, EDGES, up, EDGES, down, EDGES, from, to, route, JUNCTIONS - 1, &place, &drive, &arcs);
    if (refused("route", number, place))
        return 1;
    printf("%" PRIu32 " to %" PRIu32 ": ", from, to);
    if (distance == GRIEZMULD_NO_WALK) {
        printf("none\n");
        return drive != distance;
    }
    printf("%" PRIu64 ", %" PRIu64 " arcs:", distance, arcs);
    for (uint64_t k = 0; k < arcs; k++)
        printf(" %" PRIu32, route[k]);
    printf("\n");
    return drive != distance;
}

/* Prints the distance from a dairy to every farm, and from every farm to the dairy. */
static int list_farms(uint32_t dairy)
{
    uint64_t place;
    uint32_t number = griezmuld_sweep_from(
        order, JUNCTIONS, rank, JUNCTIONS, first, JUNCTIONS + 1, row_heads, EDGES, up, EDGES, down, EDGES,
        dairy, there, JUNCTIONS, &place);
    if (refused("sweep_from", number, place))
        return 1;
    number = griezmuld_sweep_to(
        order, JUNCTIONS, rank, JUNCTIONS, first, JUNCTIONS + 1, row_heads, EDGES, up, EDGES, down, EDGES,
        dairy, back, JUNCTIONS, &place);
    if (refused("sweep_to", number, place))
        return 1;
    printf("dairy %" PRIu32 "\n", dairy);
    show("to each farm", there, JUNCTIONS);
    show("and back", back, JUNCTIONS);
    return 0;
}

int main(void)
{
    uint64_t place, edges;
    uint32_t number = griezmuld_build(
        tails, ARCS, heads, ARCS, order, JUNCTIONS, rank, JUNCTIONS, first, JUNCTIONS + 1,
        row_heads, EDGES, &place, &edges);
    if (refused("build", number, place))
        return 1;
    printf("build: E = %" PRIu64 "\n", edges);
    show("first", first, JUNCTIONS + 1);
    show("row heads", row_heads, (size_t)edges);

    if (customise())
        return 1;
    printf("customise\n");
    show("up", up, (size_t)edges);
    show("down", down, (size_t)edges);
    if (ask(1, 3) || ask(0, 1) || ask(2, 0) || ask(0, 0) || list_farms(0))
        return 1;

    printf("arc 2 closed\n");
    costs[2] = GRIEZMULD_CLOSED;
    if (customise() || ask(0, 1) || ask(1, 3) || list_farms(0))
        return 1;

    printf("a cost that is too dear\n");
    costs[2] = GRIEZMULD_GREATEST_COST + 1;
    return customise() ? 0 : 1;
}
