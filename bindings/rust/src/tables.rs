//! The library's calls over tables that the caller lends, as include/niqastul.h describes them.

use crate::{Refusal, Share, ABSENT};

mod library {
    extern "C" {
        pub fn niqastul_relabel(
            order: *const u32, order_length: usize,
            edges: *const u32, edges_length: usize,
            out: *mut u32, out_length: usize,
            inverse: *mut u32, inverse_length: usize,
        ) -> u32;
        pub fn niqastul_start(parents: *mut u32, parents_length: usize, weights: *mut u32, weights_length: usize) -> u32;
        pub fn niqastul_add(
            parents: *mut u32, parents_length: usize,
            weights: *mut u32, weights_length: usize,
            edges: *const u32, edges_length: usize,
            ends: *mut u32, ends_length: usize,
            jump: *mut u32, jump_length: usize,
            lower: *mut u32, lower_length: usize,
            moved: *mut u32,
        ) -> u32;
        pub fn niqastul_join(
            parents: *mut u32, parents_length: usize,
            weights: *mut u32, weights_length: usize,
            other_parents: *const u32, other_parents_length: usize,
            other_weights: *const u32, other_weights_length: usize,
            ends: *mut u32, ends_length: usize,
            jump: *mut u32, jump_length: usize,
            lower: *mut u32, lower_length: usize,
            moved: *mut u32,
        ) -> u32;
        pub fn niqastul_save(
            parents: *const u32, parents_length: usize,
            weights: *const u32, weights_length: usize,
            bytes: *mut u8, bytes_length: usize,
        ) -> u32;
        pub fn niqastul_read(
            parents: *mut u32, parents_length: usize,
            weights: *mut u32, weights_length: usize,
            bytes: *const u8, bytes_length: usize,
        ) -> u32;
        pub fn niqastul_divide(
            parents: *const u32, parents_length: usize,
            weights: *const u32, weights_length: usize,
            limit: u32,
            blocks: u32,
            carried: *mut u32, carried_length: usize,
            top: *mut u32, top_length: usize,
            block: *mut u32, block_length: usize,
            block_loads: *mut u32, block_loads_length: usize,
        ) -> u32;
        pub fn niqastul_report(
            parents: *const u32, parents_length: usize,
            weights: *const u32, weights_length: usize,
            limit: u32,
            blocks: u32,
            edges: *const u32, edges_length: usize,
            carried: *mut u32, carried_length: usize,
            top: *mut u32, top_length: usize,
            block: *mut u32, block_length: usize,
            block_loads: *mut u32, block_loads_length: usize,
            edge_blocks: *mut u32, edge_blocks_length: usize,
            reach: *mut u32, reach_length: usize,
            block_count: *mut u32, block_count_length: usize,
            edges_taken: *mut u32, edges_taken_length: usize,
            compared_parents: *mut u32, compared_parents_length: usize,
            compared_weights: *mut u32, compared_weights_length: usize,
            ends: *mut u32, ends_length: usize,
            jump: *mut u32, jump_length: usize,
            lower: *mut u32, lower_length: usize,
            bound: *mut u64,
            volume: *mut u64,
            quotient: *mut u32,
            remainder: *mut u32,
        ) -> u32;
        pub fn niqastul_separate(
            parents: *const u32, parents_length: usize,
            weights: *const u32, weights_length: usize,
            one: u32,
            other: u32,
            edges: *const u32, edges_length: usize,
            separator: *mut u32, separator_length: usize,
            compared_parents: *mut u32, compared_parents_length: usize,
            compared_weights: *mut u32, compared_weights_length: usize,
            ends: *mut u32, ends_length: usize,
            jump: *mut u32, jump_length: usize,
            lower: *mut u32, lower_length: usize,
            count: *mut u32,
            lowest: *mut u32,
        ) -> u32;
        pub fn niqastul_index(
            old_edges: *const u32, old_edges_length: usize,
            added: *const u32, added_length: usize,
            starts: *mut u32, starts_length: usize,
            neighbours: *mut u32, neighbours_length: usize,
        ) -> u32;
        pub fn niqastul_query(
            starts: *const u32, starts_length: usize,
            neighbours: *const u32, neighbours_length: usize,
            rank: u32,
            first: *mut u64,
            count: *mut u64,
        ) -> u32;
    }
}

fn answer(number: u32) -> Result<(), Refusal> {
    if number == 0 {
        return Ok(());
    }
    Err(*Refusal::ALL.iter().find(|refusal| refusal.number() == number).expect("a refusal of the documents"))
}

/// What a cell tells that holds a rank, or [`ABSENT`] for none.
fn rank(told: u32) -> Option<u32> {
    (told != ABSENT).then_some(told)
}

/// Work tables of [`add`], [`join`], [`report`] and [`separate`].
#[derive(Clone, Debug, Default)]
pub struct Work {
    pub ends: Vec<u32>,
    pub jump: Vec<u32>,
    pub lower: Vec<u32>,
}

impl Work {
    /// Room for a net of so many vertices, and so many edges to add or compare with it, or vertices of a net to join.
    pub fn resize(&mut self, vertices: usize, more: usize) {
        self.ends.resize(vertices, 0);
        self.jump.resize(vertices, 0);
        self.lower.resize(vertices + more, 0);
    }
}

// What every call below owes the library: each pointer leads to as many entries as the length beside it says, and no table that is
// written overlaps another. Slices keep the first, and `&mut` the second.

/// Writes an edge list in vertex numbers as ranks to `out`, each edge with its rows, and the rank of each vertex to `inverse`.
pub fn relabel(order: &[u32], edges: &[u32], out: &mut [u32], inverse: &mut [u32]) -> Result<(), Refusal> {
    answer(unsafe {
        library::niqastul_relabel(
            order.as_ptr(), order.len(),
            edges.as_ptr(), edges.len(),
            out.as_mut_ptr(), out.len(),
            inverse.as_mut_ptr(), inverse.len(),
        )
    })
}

/// Starts a net with no edges, whatever its tables held.
pub fn start(parents: &mut [u32], weights: &mut [u32]) -> Result<(), Refusal> {
    answer(unsafe { library::niqastul_start(parents.as_mut_ptr(), parents.len(), weights.as_mut_ptr(), weights.len()) })
}

/// Adds edges to a net, as a whole or not at all; answers the lowest rank whose parent is now another, `None` if none moved.
pub fn add(parents: &mut [u32], weights: &mut [u32], edges: &[u32], work: &mut Work) -> Result<Option<u32>, Refusal> {
    let mut moved = ABSENT;
    answer(unsafe {
        library::niqastul_add(
            parents.as_mut_ptr(), parents.len(),
            weights.as_mut_ptr(), weights.len(),
            edges.as_ptr(), edges.len(),
            work.ends.as_mut_ptr(), work.ends.len(),
            work.jump.as_mut_ptr(), work.jump.len(),
            work.lower.as_mut_ptr(), work.lower.len(),
            &mut moved,
        )
    })?;
    Ok(rank(moved))
}

/// Joins a second net into a first; answers what [`add`] does, of the first.
pub fn join(
    parents: &mut [u32],
    weights: &mut [u32],
    other_parents: &[u32],
    other_weights: &[u32],
    work: &mut Work,
) -> Result<Option<u32>, Refusal> {
    let mut moved = ABSENT;
    answer(unsafe {
        library::niqastul_join(
            parents.as_mut_ptr(), parents.len(),
            weights.as_mut_ptr(), weights.len(),
            other_parents.as_ptr(), other_parents.len(),
            other_weights.as_ptr(), other_weights.len(),
            work.ends.as_mut_ptr(), work.ends.len(),
            work.jump.as_mut_ptr(), work.jump.len(),
            work.lower.as_mut_ptr(), work.lower.len(),
            &mut moved,
        )
    })?;
    Ok(rank(moved))
}

/// Writes a net as bytes, 8 to a vertex.
pub fn save(parents: &[u32], weights: &[u32], bytes: &mut [u8]) -> Result<(), Refusal> {
    answer(unsafe {
        library::niqastul_save(
            parents.as_ptr(), parents.len(),
            weights.as_ptr(), weights.len(),
            bytes.as_mut_ptr(), bytes.len(),
        )
    })
}

/// Reads a net from the bytes of a save.
pub fn read(parents: &mut [u32], weights: &mut [u32], bytes: &[u8]) -> Result<(), Refusal> {
    answer(unsafe {
        library::niqastul_read(
            parents.as_mut_ptr(), parents.len(),
            weights.as_mut_ptr(), weights.len(),
            bytes.as_ptr(), bytes.len(),
        )
    })
}

/// Divides a net into groups that carry at most a limit, and packs them into blocks.
pub fn divide(
    parents: &[u32],
    weights: &[u32],
    limit: u32,
    blocks: u32,
    carried: &mut [u32],
    top: &mut [u32],
    block: &mut [u32],
    block_loads: &mut [u32],
) -> Result<(), Refusal> {
    answer(unsafe {
        library::niqastul_divide(
            parents.as_ptr(), parents.len(),
            weights.as_ptr(), weights.len(),
            limit,
            blocks,
            carried.as_mut_ptr(), carried.len(),
            top.as_mut_ptr(), top.len(),
            block.as_mut_ptr(), block.len(),
            block_loads.as_mut_ptr(), block_loads.len(),
        )
    })
}

/// Divides a net and reports what the division costs, given the net's own edges; answers the bound, the volume and the even
/// share. Refused with [`Refusal::OtherEdges`], it leaves the net of the edges in the compared tables.
pub fn report(
    parents: &[u32],
    weights: &[u32],
    limit: u32,
    blocks: u32,
    edges: &[u32],
    carried: &mut [u32],
    top: &mut [u32],
    block: &mut [u32],
    block_loads: &mut [u32],
    edge_blocks: &mut [u32],
    reach: &mut [u32],
    block_count: &mut [u32],
    edges_taken: &mut [u32],
    compared_parents: &mut [u32],
    compared_weights: &mut [u32],
    work: &mut Work,
) -> Result<(u64, u64, Share), Refusal> {
    let (mut bound, mut volume, mut quotient, mut remainder) = (0, 0, 0, 0);
    answer(unsafe {
        library::niqastul_report(
            parents.as_ptr(), parents.len(),
            weights.as_ptr(), weights.len(),
            limit,
            blocks,
            edges.as_ptr(), edges.len(),
            carried.as_mut_ptr(), carried.len(),
            top.as_mut_ptr(), top.len(),
            block.as_mut_ptr(), block.len(),
            block_loads.as_mut_ptr(), block_loads.len(),
            edge_blocks.as_mut_ptr(), edge_blocks.len(),
            reach.as_mut_ptr(), reach.len(),
            block_count.as_mut_ptr(), block_count.len(),
            edges_taken.as_mut_ptr(), edges_taken.len(),
            compared_parents.as_mut_ptr(), compared_parents.len(),
            compared_weights.as_mut_ptr(), compared_weights.len(),
            work.ends.as_mut_ptr(), work.ends.len(),
            work.jump.as_mut_ptr(), work.jump.len(),
            work.lower.as_mut_ptr(), work.lower.len(),
            &mut bound,
            &mut volume,
            &mut quotient,
            &mut remainder,
        )
    })?;
    Ok((bound, volume, Share { quotient, remainder, blocks }))
}

/// Writes the vertices that stand above both of two ranks to the front of `separator`, lowest first, given the net's own edges; answers
/// how many there are and the lowest of them, `None` if there are none. Refused with [`Refusal::OtherEdges`] or [`Refusal::Related`], it
/// leaves the net of the edges in the compared tables.
pub fn separate(
    parents: &[u32],
    weights: &[u32],
    one: u32,
    other: u32,
    edges: &[u32],
    separator: &mut [u32],
    compared_parents: &mut [u32],
    compared_weights: &mut [u32],
    work: &mut Work,
) -> Result<(u32, Option<u32>), Refusal> {
    let (mut count, mut lowest) = (0, ABSENT);
    answer(unsafe {
        library::niqastul_separate(
            parents.as_ptr(), parents.len(),
            weights.as_ptr(), weights.len(),
            one,
            other,
            edges.as_ptr(), edges.len(),
            separator.as_mut_ptr(), separator.len(),
            compared_parents.as_mut_ptr(), compared_parents.len(),
            compared_weights.as_mut_ptr(), compared_weights.len(),
            work.ends.as_mut_ptr(), work.ends.len(),
            work.jump.as_mut_ptr(), work.jump.len(),
            work.lower.as_mut_ptr(), work.lower.len(),
            &mut count,
            &mut lowest,
        )
    })?;
    Ok((count, rank(lowest)))
}

/// Writes the index of an old list of edges followed by an added one, whatever its tables held.
pub fn index(old_edges: &[u32], added: &[u32], starts: &mut [u32], neighbours: &mut [u32]) -> Result<(), Refusal> {
    answer(unsafe {
        library::niqastul_index(
            old_edges.as_ptr(), old_edges.len(),
            added.as_ptr(), added.len(),
            starts.as_mut_ptr(), starts.len(),
            neighbours.as_mut_ptr(), neighbours.len(),
        )
    })
}

/// The run of a rank, as part of the neighbours of an index.
pub fn query<'a>(starts: &[u32], neighbours: &'a [u32], rank: u32) -> Result<&'a [u32], Refusal> {
    let (mut first, mut count) = (0, 0);
    answer(unsafe {
        library::niqastul_query(
            starts.as_ptr(), starts.len(),
            neighbours.as_ptr(), neighbours.len(),
            rank,
            &mut first,
            &mut count,
        )
    })?;
    Ok(&neighbours[first as usize..][..count as usize])
}
