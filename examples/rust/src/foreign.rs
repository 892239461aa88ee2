//! The C functions as include/griezmuld.h declares them. Nothing checks one against the other: keep them alike.

#![allow(unsafe_code)]

#[rustfmt::skip]
extern "C" {
    pub fn griezmuld_version() -> u32;

    pub fn griezmuld_build(
        tails: *const u32, tails_length: usize,
        heads: *const u32, heads_length: usize,
        order: *const u32, order_length: usize,
        rank: *mut u32, rank_length: usize,
        first: *mut u32, first_length: usize,
        row_heads: *mut u32, row_heads_length: usize,
        place: *mut u64,
        edges: *mut u64,
    ) -> u32;

    pub fn griezmuld_customise(
        tails: *const u32, tails_length: usize,
        heads: *const u32, heads_length: usize,
        costs: *const u32, costs_length: usize,
        order: *const u32, order_length: usize,
        rank: *const u32, rank_length: usize,
        first: *const u32, first_length: usize,
        row_heads: *const u32, row_heads_length: usize,
        up: *mut u32, up_length: usize,
        down: *mut u32, down_length: usize,
        place: *mut u64,
    ) -> u32;

    pub fn griezmuld_change(
        tails: *const u32, tails_length: usize,
        heads: *const u32, heads_length: usize,
        costs: *mut u32, costs_length: usize,
        order: *const u32, order_length: usize,
        rank: *const u32, rank_length: usize,
        first: *const u32, first_length: usize,
        row_heads: *const u32, row_heads_length: usize,
        up: *mut u32, up_length: usize,
        down: *mut u32, down_length: usize,
        arc: u32,
        cost: u32,
        place: *mut u64,
        triangles: *mut u64,
    ) -> u32;

    pub fn griezmuld_distance(
        order: *const u32, order_length: usize,
        rank: *const u32, rank_length: usize,
        first: *const u32, first_length: usize,
        row_heads: *const u32, row_heads_length: usize,
        up: *const u32, up_length: usize,
        down: *const u32, down_length: usize,
        from: u32,
        to: u32,
        place: *mut u64,
        distance: *mut u64,
    ) -> u32;

    pub fn griezmuld_sweep_from(
        order: *const u32, order_length: usize,
        rank: *const u32, rank_length: usize,
        first: *const u32, first_length: usize,
        row_heads: *const u32, row_heads_length: usize,
        up: *const u32, up_length: usize,
        down: *const u32, down_length: usize,
        from: u32,
        distances: *mut u32, distances_length: usize,
        place: *mut u64,
    ) -> u32;

    pub fn griezmuld_sweep_to(
        order: *const u32, order_length: usize,
        rank: *const u32, rank_length: usize,
        first: *const u32, first_length: usize,
        row_heads: *const u32, row_heads_length: usize,
        up: *const u32, up_length: usize,
        down: *const u32, down_length: usize,
        to: u32,
        distances: *mut u32, distances_length: usize,
        place: *mut u64,
    ) -> u32;

    pub fn griezmuld_route(
        tails: *const u32, tails_length: usize,
        heads: *const u32, heads_length: usize,
        costs: *const u32, costs_length: usize,
        order: *const u32, order_length: usize,
        rank: *const u32, rank_length: usize,
        first: *const u32, first_length: usize,
        row_heads: *const u32, row_heads_length: usize,
        up: *const u32, up_length: usize,
        down: *const u32, down_length: usize,
        from: u32,
        to: u32,
        route: *mut u32, route_length: usize,
        place: *mut u64,
        distance: *mut u64,
        arcs: *mut u64,
    ) -> u32;
}
