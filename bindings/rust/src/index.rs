//! Runs of neighbours, kept beside an edge list.

use crate::{tables, Refusal, MAX_VERTICES, STRIDE};

/// For each vertex its neighbours in the order of an edge list, repeats included: its run. All runs stand in one table, end to end by
/// rising rank.
#[derive(Clone, Debug, PartialEq, Eq)]
pub struct Index {
    starts: Vec<u32>,
    runs: Vec<u32>,
}

impl Index {
    /// The index of edges, three numbers to an edge, among so many vertices. It has no rows.
    pub fn new(vertices: usize, edges: &[u32]) -> Result<Index, Refusal> {
        Index::with_added(vertices, edges, &[])
    }

    /// The index of an old list of edges followed by an added one.
    pub fn with_added(vertices: usize, old_edges: &[u32], added: &[u32]) -> Result<Index, Refusal> {
        // no vertex is refused as too many are, and needs no table
        let vertices = if vertices > MAX_VERTICES { 0 } else { vertices };
        let edges = old_edges.len() / STRIDE + added.len() / STRIDE;
        let mut its = Index { starts: vec![0; vertices + 1], runs: vec![0; 2 * edges] };
        tables::index(old_edges, added, &mut its.starts, &mut its.runs)?;
        Ok(its)
    }

    /// The other end of each edge at a vertex, in the order of the list: a part of the runs.
    pub fn neighbours(&self, rank: u32) -> Result<&[u32], Refusal> {
        tables::query(&self.starts, &self.runs, rank)
    }

    /// Where the run of each vertex starts, and last where the last run ends.
    pub fn starts(&self) -> &[u32] {
        &self.starts
    }

    /// The runs of all vertices, end to end.
    pub fn runs(&self) -> &[u32] {
        &self.runs
    }
}
