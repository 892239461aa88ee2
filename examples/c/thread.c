/*
 * A route in a thread that has the stack it may need: a road of 4,096 junctions whose order is as bad as can be, so that
 * shortcuts nest 4,000 deep. Then two questions about a net without arcs, whose empty lists are GRIEZMULD_EMPTY; the
 * second is refused, and the refusal told in words. See run, beside this file.
 *
 * The same thread in Java, where call is a Runnable that calls griezmuld_route:
 *
 *   Thread thread = new Thread(null, call, "route", 2L << 20);
 *   thread.start();
 *   thread.join();
 *
 * In C++ std::thread cannot be given a stack: use pthread as here, or Boost, where call is any function object:
 *
 *   boost::thread::attributes attributes;
 *   attributes.set_stack_size(GRIEZMULD_ROUTE_STACK);
 *   boost::thread thread(attributes, call);
 *   thread.join();
 */
#define _POSIX_C_SOURCE 200809L
#include "griezmuld.h"

#include <inttypes.h>
#include <pthread.h>
#include <stdio.h>

enum { JUNCTIONS = GRIEZMULD_MOST_JUNCTIONS, ARCS = JUNCTIONS - 1, EDGES = 2 * JUNCTIONS };

/* A net with its graph: its lists, and how long each is. */
struct net {
    uint32_t *tails, *heads, *costs;
    size_t arcs;
    uint32_t *order, *rank, *first;
    size_t junctions;
    uint32_t *row_heads, *up, *down;
    size_t room;
};

/* A question, and the answer to it. */
struct question {
    const struct net *net;
    uint32_t from, to;
    uint32_t *route;
    size_t route_room;
    uint32_t number;
    uint64_t place, distance, arcs;
};

/* The road's lists, and those of the net without arcs. */
static uint32_t tails[ARCS], heads[ARCS], costs[ARCS], order[JUNCTIONS], rank[JUNCTIONS], first[JUNCTIONS + 1];
static uint32_t row_heads[EDGES], up[EDGES], down[EDGES], route[ARCS];
static uint32_t bare_order[2] = {0, 1}, bare_rank[2], bare_first[3];

/* Says what a call answered if it refused, and whether it did. */
static int refused(const char *call, uint32_t number, uint64_t place)
{
    if (number != GRIEZMULD_ACCEPTED)
        printf("%s: refused %" PRIu32 ", %s; place %" PRIu64 "\n", call, number, griezmuld_refusal_text(number), place);
    return number != GRIEZMULD_ACCEPTED;
}

/* Builds the graph of a net and puts the costs onto it. */
static int prepare(const struct net *net)
{
    uint64_t place, edges;
    uint32_t number = griezmuld_build(
        net->tails, net->arcs, net->heads, net->arcs, net->order, net->junctions, net->rank, net->junctions,
        net->first, net->junctions + 1, net->row_heads, net->room, &place, &edges);
    if (refused("build", number, place))
        return 1;
    number = griezmuld_customise(
        net->tails, net->arcs, net->heads, net->arcs, net->costs, net->arcs, net->order, net->junctions,
        net->rank, net->junctions, net->first, net->junctions + 1, net->row_heads, net->room,
        net->up, net->room, net->down, net->room, &place);
    return refused("customise", number, place);
}

/* What the thread does: answers one question. */
static void *drive(void *asked)
{
    struct question *q = asked;
    const struct net *net = q->net;
    q->number = griezmuld_route(
        net->tails, net->arcs, net->heads, net->arcs, net->costs, net->arcs, net->order, net->junctions,
        net->rank, net->junctions, net->first, net->junctions + 1, net->row_heads, net->room,
        net->up, net->room, net->down, net->room, q->from, q->to, q->route, q->route_room,
        &q->place, &q->distance, &q->arcs);
    return NULL;
}

/* Drives in a thread with GRIEZMULD_ROUTE_STACK; not 0 if there is no such thread. */
static int drive_in_thread(struct question *asked)
{
    pthread_attr_t wanted;
    pthread_t thread;
    if (pthread_attr_init(&wanted) != 0)
        return 1;
    int failed = pthread_attr_setstacksize(&wanted, GRIEZMULD_ROUTE_STACK);
    if (failed == 0)
        failed = pthread_create(&thread, &wanted, drive, asked);
    if (failed == 0)
        failed = pthread_join(thread, NULL);
    pthread_attr_destroy(&wanted);
    return failed;
}

static int ask(struct question asked)
{
    if (drive_in_thread(&asked) != 0) {
        fprintf(stderr, "no thread with a stack of %u bytes\n", GRIEZMULD_ROUTE_STACK);
        return 1;
    }
    if (refused("route", asked.number, asked.place))
        return 0;
    printf("%" PRIu32 " to %" PRIu32 ": ", asked.from, asked.to);
    if (asked.distance == GRIEZMULD_NO_WALK)
        printf("none\n");
    else
        printf("%" PRIu64 ", %" PRIu64 " arcs\n", asked.distance, asked.arcs);
    return 0;
}

/* A road from junction 0 to the last; both ends come last in the order, and the others as they stand on the road. */
static struct net long_road(void)
{
    for (uint32_t arc = 0; arc < ARCS; arc++) {
        tails[arc] = arc;
        heads[arc] = arc + 1;
        costs[arc] = 10;
        order[arc] = arc + 1;
    }
    order[JUNCTIONS - 2] = 0;
    order[JUNCTIONS - 1] = JUNCTIONS - 1;
    struct net road = {tails, heads, costs, ARCS, order, rank, first, JUNCTIONS, row_heads, up, down, EDGES};
    return road;
}

int main(void)
{
    if (griezmuld_version() != GRIEZMULD_VERSION) {
        fprintf(stderr, "the header is of %u, the archive of %" PRIu32 "\n", GRIEZMULD_VERSION, griezmuld_version());
        return 1;
    }
    printf("header and archive are of one release\n");

    struct net road = long_road();
    struct question whole_road = {&road, 0, JUNCTIONS - 1, route, ARCS, 0, 0, 0, 0};
    if (prepare(&road) || ask(whole_road))
        return 1;

    struct net bare = {GRIEZMULD_EMPTY, GRIEZMULD_EMPTY, GRIEZMULD_EMPTY, 0, bare_order, bare_rank, bare_first, 2,
                       GRIEZMULD_EMPTY, GRIEZMULD_EMPTY, GRIEZMULD_EMPTY, 0};
    struct question nowhere = {&bare, 0, 1, GRIEZMULD_EMPTY, 0, 0, 0, 0, 0};
    struct question nobody = {&bare, 0, 2, GRIEZMULD_EMPTY, 0, 0, 0, 0, 0};
    return prepare(&bare) || ask(nowhere) || ask(nobody);
}
