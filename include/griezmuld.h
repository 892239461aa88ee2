/*
 * Griezmuld: cheapest driving routes of milk tankers. For x86-64 Linux only: the archive is code for no other.
 *
 * Seven calls. griezmuld_build makes a graph of shortcuts from the roads and an order of the junctions; it is called once
 * for an area. griezmuld_customise puts the costs of all arcs onto that graph; it is called once for a list of costs.
 * griezmuld_change then gives one arc another cost: a driver closes a road, or opens it again, and need not wait for the
 * whole area. griezmuld_distance and griezmuld_route answer questions about two junctions; griezmuld_sweep_from and
 * griezmuld_sweep_to list the distances from one junction to all, and from all to one.
 *
 * The net
 *   Junctions are numbered 0 to n - 1. There are 1 to 4,096 of them.
 *   Arcs are one-way pieces of road, numbered from 0 in list order: arc i leads from tails[i] to heads[i] and costs
 *   costs[i]. There are at most 16,384 of them. A road for both ways is two arcs.
 *   A cost is 1 to 500,000 tenths of a second, or GRIEZMULD_CLOSED for an arc that nobody may drive.
 *   If several arcs have the same tail and the same head, only the last of them counts, even where that one is closed.
 *   Arcs whose ends are equal are accepted and never used.
 *   The order list holds each junction once: order[p] is the junction at position p. n is its length, in every call. Any
 *   order gives right answers; one made by cutting the map in halves again and again gives small graphs and quick answers.
 *
 * The graph
 *   It is held in three lists that build writes: rank (n long; the position of each junction), first (n + 1 long) and
 *   row_heads. The higher neighbours of position p stand in row_heads, at places first[p] up to but not including
 *   first[p + 1]. E, the number of edges, is first[n]. The costs of the edge at place k are up[k], from the lower position
 *   to the higher, and down[k], back.
 *   The caller hands these lists on as they are and need not look into them.
 *
 * Lists, and who owns them
 *   Every list is a pointer and a length, counted in elements. The caller owns every list, before and after. A call keeps
 *   no pointer, takes no memory from a heap, and has no state: calls on different lists may run on several threads at once.
 *   A list that is const is only read. A list that a call writes must not overlap any other list of that call.
 *   A pointer must not be NULL, even where its length is 0; it is then not used. An empty std::vector's data() and
 *   malloc(0) may be NULL: lend GRIEZMULD_EMPTY for an empty list.
 *
 * Stack
 *   What a call needs besides the lists it keeps on the stack. On the lists that ask most of it, measured for x86-64 to
 *   the next 16 KiB: build 128 KiB, customise 48 KiB, change 1,200 KiB, distance 80 KiB, either sweep 48 KiB, route
 *   768 KiB. Of change's, 176 KiB are enough for a graph of up to 65,536 edges; the rest is one bit for each edge that
 *   there can be. Of route's, some 120 KiB are always used; the rest is for shortcuts made of shortcuts, some 160 bytes for
 *   each inside another. They nest 4,000 deep only if the order is as bad as can be, but nothing forbids such an order:
 *   give the thread that calls route GRIEZMULD_ROUTE_STACK bytes, which are enough for every other call too.
 *   examples/c/thread.c does so.
 *
 * What a call costs
 *   Any lists may come in, so every call checks its lists anew, each time: a distance or a sweep goes once through order,
 *   rank, first and row_heads before it turns to the question itself, and a route through the arcs besides. On 4,096
 *   junctions with 12,794 arcs and 53,884 edges, on the machine of docs/BENCHMARKS.md, a distance takes some 0.2
 *   milliseconds, most of it checks, a route 0.5, build 0.5 and customise 2.4. A change takes 0.8 there, in the mean over
 *   arcs chosen anyhow; the dearest of 64 arcs took four tenths of customise's instructions there, and on a path where one
 *   arc changes every row one and a half of them. Where many costs change at once, customise comes cheaper.
 *   Many distances from one junction, or to one, come cheaper by a sweep: it makes its checks once.
 *
 * Replies
 *   Each call returns the number of a refusal: one of enum griezmuld_refusal, GRIEZMULD_ACCEPTED when it has accepted.
 *   griezmuld_refusal_text says each in words. A call makes its checks in the order given with it; the first that fails
 *   decides.
 *   It always writes *place: with 3, 8 and 9 the arc at fault, with 4 the position, with 16 the junction, the lowest if
 *   there are several; with 9 for a new cost the arc that was to get it; with any other refusal, and when accepted, 0. Its
 *   other numbers it always writes, too; after a refusal they are 0.
 *   After a refusal every list is as it was, except: after 6, rank, first and row_heads are all 0; after 12 or 13 every
 *   place of the route list is 4,294,967,295; after 16 every place of distances is.
 *   Whatever the lists hold, a call returns, if its thread has the stack named above, and it writes nothing outside the
 *   lists and numbers that it is lent to write. With less stack the system ends the program: no reply tells of it.
 *
 * How long the lists must be, for m arcs
 *   tails, heads, costs   m
 *   order, rank           n
 *   first                 n + 1
 *   row_heads, up, down   at least E. E isn't known before build has run: it is at most n * (n - 1) / 2, and on a road map
 *                         with a good order some 3 to 15 times n. If row_heads was too short (6), lend a longer one.
 *   route                 at least the number of arcs of the route: n - 1 is enough where up and down are as customise
 *                         or change left them for the costs at hand.
 *   distances             n
 *
 * An example, for two junctions with a road each way:
 *
 *   uint32_t tails[2] = {0, 1}, heads[2] = {1, 0}, costs[2] = {120, 150}, order[2] = {0, 1};
 *   uint32_t rank[2], first[3], row_heads[1], up[1], down[1], route[1];
 *   uint64_t place, edges, distance, arcs;
 *   uint32_t refused = griezmuld_build(tails, 2, heads, 2, order, 2, rank, 2, first, 3, row_heads, 1, &place, &edges);
 *   if (refused == 0)
 *       refused = griezmuld_customise(tails, 2, heads, 2, costs, 2, order, 2, rank, 2, first, 3, row_heads, 1,
 *                                     up, 1, down, 1, &place);
 *   if (refused == 0)
 *       refused = griezmuld_route(tails, 2, heads, 2, costs, 2, order, 2, rank, 2, first, 3, row_heads, 1,
 *                                 up, 1, down, 1, 1, 0, route, 1, &place, &distance, &arcs);
 *   // now refused is 0, distance is 150, arcs is 1, route[0] is 1
 *
 * A longer one is examples/c/example.c. Link with libtablet.a; `make library` puts it and this file into target/.
 * `make install` puts both where compilers look, the archive as libgriezmuld.a: link with what `pkg-config --libs griezmuld`
 * says. The archive calls one function from outside, memset; any C library has it.
 */
#ifndef GRIEZMULD_H
#define GRIEZMULD_H

#include <stddef.h>
#include <stdint.h>

#ifdef __cplusplus
extern "C" {
#endif

/* The release that this header is of: major * 10000 + minor * 100 + patch. */
#define GRIEZMULD_VERSION 10301u

/*
 * The cost of a closed arc, and of an edge that nobody can drive; what fills a route list where no arc stands, and
 * distances where no walk leads.
 */
#define GRIEZMULD_CLOSED UINT32_MAX

/* The distance where no walk leads from one junction to the other. */
#define GRIEZMULD_NO_WALK UINT64_MAX

/* The greatest cost of an arc that isn't closed. */
#define GRIEZMULD_GREATEST_COST 500000u

/* The most junctions and the most arcs of a net. */
#define GRIEZMULD_MOST_JUNCTIONS 4096u
#define GRIEZMULD_MOST_ARCS 16384u

/* The stack, in bytes, to give a thread that calls griezmuld_route; it is enough for every call. */
#define GRIEZMULD_ROUTE_STACK 2097152u

/* What may be lent for a list of length 0: not NULL, aligned, never read and never written. */
#define GRIEZMULD_EMPTY ((uint32_t *)sizeof(uint32_t))

/* What a call returns. A comment says only what griezmuld_refusal_text does not. */
enum griezmuld_refusal {
    GRIEZMULD_ACCEPTED = 0,
    GRIEZMULD_REFUSED_JUNCTION_COUNT = 1,
    GRIEZMULD_REFUSED_ARC_LISTS = 2,
    GRIEZMULD_REFUSED_ARC_END = 3,
    GRIEZMULD_REFUSED_ORDER_ENTRY = 4,
    GRIEZMULD_REFUSED_RANK_OR_FIRST_ROOM = 5,
    GRIEZMULD_REFUSED_HEADS_ROOM = 6,
    /* in the sense of document 01; one may have more edges than build would make, however many: its E is first[n] */
    GRIEZMULD_REFUSED_NOT_A_HIERARCHY = 7,
    GRIEZMULD_REFUSED_ARC_WITHOUT_EDGE = 8,
    GRIEZMULD_REFUSED_ARC_COST = 9,
    GRIEZMULD_REFUSED_COST_LISTS = 10,
    GRIEZMULD_REFUSED_START_OR_TARGET = 11,
    GRIEZMULD_REFUSED_ROUTE_ROOM = 12,
    /* up and down are not what customise or change leaves for these costs */
    GRIEZMULD_REFUSED_PIECE_FITS_NOTHING = 13,
    /* by the program `route`, and by no call */
    GRIEZMULD_REFUSED_TEXT = 14,
    GRIEZMULD_REFUSED_DISTANCE_ROOM = 15,
    /* never with up and down as customise or change left them */
    GRIEZMULD_REFUSED_TOO_FAR = 16,
    GRIEZMULD_REFUSED_ARC_NUMBER = 17
};

/* What a call returned, in words. They stay as long as the program runs. */
static inline const char *griezmuld_refusal_text(uint32_t number)
{
    switch (number) {
    case GRIEZMULD_ACCEPTED: return "accepted";
    case GRIEZMULD_REFUSED_JUNCTION_COUNT: return "n is 0 or over 4,096";
    case GRIEZMULD_REFUSED_ARC_LISTS: return "the arc lists differ in length or exceed 16,384";
    case GRIEZMULD_REFUSED_ARC_END: return "an arc end is n or more";
    case GRIEZMULD_REFUSED_ORDER_ENTRY: return "an order entry is n or more, or was seen earlier";
    case GRIEZMULD_REFUSED_RANK_OR_FIRST_ROOM: return "rank isn't n long, or first isn't n + 1 long";
    case GRIEZMULD_REFUSED_HEADS_ROOM: return "row_heads is shorter than E";
    case GRIEZMULD_REFUSED_NOT_A_HIERARCHY: return "rank, first and row_heads aren't a hierarchy for this order";
    case GRIEZMULD_REFUSED_ARC_WITHOUT_EDGE: return "an arc with unequal ends has no edge";
    case GRIEZMULD_REFUSED_ARC_COST: return "an arc cost is 0, or over 500,000 and not closed";
    case GRIEZMULD_REFUSED_COST_LISTS: return "up or down is shorter than E";
    case GRIEZMULD_REFUSED_START_OR_TARGET: return "from or to is n or more";
    case GRIEZMULD_REFUSED_ROUTE_ROOM: return "an arc of the route has no place left";
    case GRIEZMULD_REFUSED_PIECE_FITS_NOTHING: return "a piece of the route fits neither an arc nor two lower pieces";
    case GRIEZMULD_REFUSED_TEXT: return "the program's text breaks its rules";
    case GRIEZMULD_REFUSED_DISTANCE_ROOM: return "distances isn't n long";
    case GRIEZMULD_REFUSED_TOO_FAR: return "a distance is 4,294,967,295 or more";
    case GRIEZMULD_REFUSED_ARC_NUMBER: return "no arc has the number given";
    default: return "no refusal has this number";
    }
}

/*
 * The GRIEZMULD_VERSION of the archive's own header: where it differs from the one at hand, header and archive do not
 * belong together.
 */
uint32_t griezmuld_version(void);

/*
 * Builds the graph of shortcuts into rank, first and row_heads. It asks for no costs: closed arcs have their place in the
 * graph, so that a road that opens again needs no new one.
 * *edges becomes E. Places of row_heads past E become 0.
 * Checks: 1, 2, 3, 4, 5, 6.
 */
uint32_t griezmuld_build(
    const uint32_t *tails, size_t tails_length,
    const uint32_t *heads, size_t heads_length,
    const uint32_t *order, size_t order_length,
    uint32_t *rank, size_t rank_length,
    uint32_t *first, size_t first_length,
    uint32_t *row_heads, size_t row_heads_length,
    uint64_t *place,
    uint64_t *edges);

/*
 * Puts the arcs' costs onto the graph: writes up and down. Places past E become GRIEZMULD_CLOSED.
 * Checks: 1, 2, 3, 4, 7, 8, 9, 10.
 */
uint32_t griezmuld_customise(
    const uint32_t *tails, size_t tails_length,
    const uint32_t *heads, size_t heads_length,
    const uint32_t *costs, size_t costs_length,
    const uint32_t *order, size_t order_length,
    const uint32_t *rank, size_t rank_length,
    const uint32_t *first, size_t first_length,
    const uint32_t *row_heads, size_t row_heads_length,
    uint32_t *up, size_t up_length,
    uint32_t *down, size_t down_length,
    uint64_t *place);

/*
 * Gives one arc another cost, GRIEZMULD_CLOSED to close it: writes costs[arc], and up and down where they hang on it. The
 * three lists change together or not at all.
 * With up and down as customise left them for these costs, they become what customise would leave for the new ones; so
 * any number of changes may follow one another. On other lists the call works from what stands there: edges go by
 * ascending lower end, and one is reconsidered if the arc that counts from one of its ends to the other has changed its
 * cost, or if a position below both ends is joined to both and one of these two edges has just been changed. It gets both
 * costs anew, by customise's rule, from those that then stand. No other edge changes, and no place past E.
 * *triangles becomes the number of lower triangles looked at: one for each position below both ends of a reconsidered edge
 * and joined to both. It is 0 where the arc's ends are equal, a later arc hides it, or it has that cost already.
 * The costs are checked as they come in: one that is refused with 9 can't be mended by this call.
 * Checks: 1, 2, 3, 4, 7, 8, 9, 10, 17, then 9 for the new cost.
 */
uint32_t griezmuld_change(
    const uint32_t *tails, size_t tails_length,
    const uint32_t *heads, size_t heads_length,
    uint32_t *costs, size_t costs_length,
    const uint32_t *order, size_t order_length,
    const uint32_t *rank, size_t rank_length,
    const uint32_t *first, size_t first_length,
    const uint32_t *row_heads, size_t row_heads_length,
    uint32_t *up, size_t up_length,
    uint32_t *down, size_t down_length,
    uint32_t arc,
    uint32_t cost,
    uint64_t *place,
    uint64_t *triangles);

/*
 * The distance from one junction to another, in tenths of a second: *distance, or GRIEZMULD_NO_WALK where no walk leads
 * there. With up and down as customise left them, or change after it, it is the least cost of any walk along open arcs.
 * Checks: 1, 4, 7, 10, 11.
 */
uint32_t griezmuld_distance(
    const uint32_t *order, size_t order_length,
    const uint32_t *rank, size_t rank_length,
    const uint32_t *first, size_t first_length,
    const uint32_t *row_heads, size_t row_heads_length,
    const uint32_t *up, size_t up_length,
    const uint32_t *down, size_t down_length,
    uint32_t from,
    uint32_t to,
    uint64_t *place,
    uint64_t *distance);

/*
 * The distances from one junction to all: distances[j] becomes what griezmuld_distance tells of the pair (from, j), or
 * GRIEZMULD_CLOSED where no walk leads there.
 * Checks: 1, 4, 7, 10, 11, 15, 16.
 */
uint32_t griezmuld_sweep_from(
    const uint32_t *order, size_t order_length,
    const uint32_t *rank, size_t rank_length,
    const uint32_t *first, size_t first_length,
    const uint32_t *row_heads, size_t row_heads_length,
    const uint32_t *up, size_t up_length,
    const uint32_t *down, size_t down_length,
    uint32_t from,
    uint32_t *distances, size_t distances_length,
    uint64_t *place);

/*
 * The distances from all junctions to one: distances[j] becomes what griezmuld_distance tells of the pair (j, to), or
 * GRIEZMULD_CLOSED where no walk leads there.
 * Checks: 1, 4, 7, 10, 11, 15, 16.
 */
uint32_t griezmuld_sweep_to(
    const uint32_t *order, size_t order_length,
    const uint32_t *rank, size_t rank_length,
    const uint32_t *first, size_t first_length,
    const uint32_t *row_heads, size_t row_heads_length,
    const uint32_t *up, size_t up_length,
    const uint32_t *down, size_t down_length,
    uint32_t to,
    uint32_t *distances, size_t distances_length,
    uint64_t *place);

/*
 * The route from one junction to another: *distance as above, *arcs the number of arcs, and the arcs' numbers in driving
 * order in the route list. Its other places become 4,294,967,295, and all of them do where no walk leads there; *arcs is
 * then 0. Costs must be those that customise or change left up and down for; else the call may refuse with 13.
 * Checks: 1, 2, 3, 4, 7, 8, 9, 10, 11, then 12 and 13, whichever is met first on the way.
 */
uint32_t griezmuld_route(
    const uint32_t *tails, size_t tails_length,
    const uint32_t *heads, size_t heads_length,
    const uint32_t *costs, size_t costs_length,
    const uint32_t *order, size_t order_length,
    const uint32_t *rank, size_t rank_length,
    const uint32_t *first, size_t first_length,
    const uint32_t *row_heads, size_t row_heads_length,
    const uint32_t *up, size_t up_length,
    const uint32_t *down, size_t down_length,
    uint32_t from,
    uint32_t to,
    uint32_t *route, size_t route_length,
    uint64_t *place,
    uint64_t *distance,
    uint64_t *arcs);

#ifdef __cplusplus
}
#endif

#endif
