//! Elimination forests of graphs, grown, joined and divided, and indexes of neighbours, by a proved library.
//!
//! A [`Net`] owns its tables, takes edges, in one thread or in several, and is divided; an [`Index`] has the neighbours of each vertex
//! of an edge list; [`relabel`] takes an edge list from vertex numbers to ranks. Below them, [`tables`] has the library's calls over
//! slices that the caller lends, with no allocation. Every call is safe: the library checks all that its tables hold, and what is
//! left, that a table to be written overlaps no other, is what `&mut` says.
//!
//! An edge is three numbers in every list: its two vertices and its rows, 1 to [`MAX_ROWS`]. A levelled difference gives the adjustment
//! one equation row, a satellite vector three, a full pose six. Weights are sums of rows.
//!
//! ```
//! let mut net = niqastul::Net::new(4)?;
//! net.add(&[0, 1, 1, 0, 2, 6])?; // 0-1 of one row, 0-2 of six
//! assert_eq!(net.add(&[0, 3, 1])?, Some(2)); // the lowest rank whose parent is now another
//! assert_eq!(net.parents(), [1, 2, 3, niqastul::ABSENT]);
//! assert_eq!(net.add(&[1, 2, 3])?, None); // none moved
//! assert_eq!(net.weights(), [8, 3, 0, 0]);
//! assert_eq!(net.add(&[0, 4, 1]), Err(niqastul::Refusal::BadVertex));
//! assert_eq!(net.add(&[0, 3, 7]), Err(niqastul::Refusal::BadRows));
//! assert_eq!(net.divide(8, 2)?.block, [0, 1, 1, 1]);
//! assert_eq!(niqastul::Index::new(4, &[0, 1, 1, 2, 0, 1, 0, 3, 1])?.neighbours(0)?, [1, 2, 3]);
//! # Ok::<(), niqastul::Refusal>(())
//! ```

mod index;
// skipped: a pointer and its length stand on one line
#[rustfmt::skip]
pub mod tables;
mod threads;

pub use index::Index;

/// The parent of a vertex that has none.
pub const ABSENT: u32 = 0xFFFF_FFFF;

/// The numbers to an edge in a list: its ends and its rows.
pub const STRIDE: usize = 3;

/// The largest number of vertices of a net or an index.
pub const MAX_VERTICES: usize = 1_000_000;

/// The largest number of rows of an edge.
pub const MAX_ROWS: u32 = 6;

/// The largest number of edges of a list that is added, given as a net's own or indexed.
pub const MAX_EDGES: usize = 16_000_000;

/// The largest total of the weights of a net, in rows.
pub const MAX_TOTAL: u32 = 96_000_000;

/// The largest limit on the weight that a group may carry, in rows.
pub const MAX_LIMIT: u32 = 96_000_000;

/// The largest number of blocks.
pub const MAX_BLOCKS: u32 = 1_000;

/// Why a call was refused; its tables are as they were. Where several apply, the one that stands first here is given.
#[derive(Clone, Copy, Debug, PartialEq, Eq, Hash)]
#[repr(u32)]
pub enum Refusal {
    /// No vertex, or more than [`MAX_VERTICES`].
    BadCount = 1,
    /// A table of the wrong length, an edge list that is not whole edges, or no starts of an index.
    WrongLength = 2,
    /// Bytes that are not a file of as many records as there are vertices.
    BadFile = 6,
    /// An entry of the order is out of range, or repeats.
    BadOrder = 3,
    /// A limit or a number of blocks out of range.
    BadLimit = 8,
    /// Two nets with different numbers of vertices.
    UnlikeCounts = 21,
    /// A net with a parent that is neither absent nor above its vertex, or with too large a total; starts of an index that do not go
    /// from 0 up to the number of its neighbours without falling.
    Damaged = 30,
    /// The first faulty edge names a vertex out of range, or a rank asked for is out of range.
    BadVertex = 4,
    /// The first faulty edge has one vertex as both its ends.
    Loop = 5,
    /// The first faulty edge has rows that are not 1 to [`MAX_ROWS`].
    BadRows = 32,
    /// A record's parent is neither absent nor above its vertex.
    BadParent = 7,
    /// A list of more than [`MAX_EDGES`] edges, or a total above [`MAX_TOTAL`].
    Full = 20,
    /// A weight above the limit, so that no cutting can hold it.
    TooHeavy = 22,
    /// Edges that have other parents or weights than the net.
    OtherEdges = 23,
    /// The two ranks are equal, or one stands above the other.
    Related = 31,
}

impl Refusal {
    #[rustfmt::skip]
    const ALL: [Refusal; 15] = {
        use Refusal::*;
        [
            BadCount, WrongLength, BadFile, BadOrder, BadLimit, UnlikeCounts, Damaged, BadVertex, Loop, BadRows, BadParent, Full, TooHeavy,
            OtherEdges, Related,
        ]
    };

    /// The number by which the refusal goes in every language.
    pub fn number(self) -> u32 {
        self as u32
    }

    /// What it says, in a few words for a message: the text of `niqastul_text` in include/niqastul.h.
    pub fn text(self) -> &'static str {
        use Refusal::*;
        match self {
            BadCount => "no vertex, or more than 1,000,000",
            WrongLength => "a table of the wrong length, or an edge list that is not whole edges",
            BadFile => "not whole records, or not as many as the net has vertices",
            BadOrder => "an entry of the order is out of range or repeats",
            BadLimit => "a limit or a number of blocks out of range",
            UnlikeCounts => "two nets with different numbers of vertices",
            Damaged => "a net or an index whose tables are damaged",
            BadVertex => "an edge or a query names a vertex out of range",
            Loop => "both ends of an edge are one vertex",
            BadRows => "the rows of an edge are not 1 to 6",
            BadParent => "a record's parent is neither absent nor above its vertex",
            Full => "more than 16,000,000 edges in a list, or 96,000,000 rows in all",
            TooHeavy => "a weight above the limit",
            OtherEdges => "the edges are not those of the net",
            Related => "the two ranks are equal, or one stands above the other",
        }
    }
}

impl std::fmt::Display for Refusal {
    fn fmt(&self, out: &mut std::fmt::Formatter<'_>) -> std::fmt::Result {
        write!(out, "refused {}: {}", self.number(), self.text())
    }
}

impl std::error::Error for Refusal {}

/// An elimination forest with a weight on each vertex, and the work tables that its calls need.
#[derive(Clone, Debug, Default)]
pub struct Net {
    parents: Vec<u32>,
    weights: Vec<u32>,
    work: tables::Work,
}

impl Net {
    /// A net of so many vertices with no edges.
    pub fn new(vertices: usize) -> Result<Net, Refusal> {
        let mut net = Net { parents: vec![0; vertices], weights: vec![0; vertices], ..Net::default() };
        tables::start(&mut net.parents, &mut net.weights)?;
        Ok(net)
    }

    /// The parent of each vertex in the elimination forest, or [`ABSENT`].
    pub fn parents(&self) -> &[u32] {
        &self.parents
    }

    /// The sum of the rows of the edges whose lower end a vertex is.
    pub fn weights(&self) -> &[u32] {
        &self.weights
    }

    /// Adds edges, as a whole or not at all: three numbers to an edge, two ranks and its rows. Answers the lowest rank whose parent is
    /// now another: who keeps a copy of the parents rereads them from there on. `None` if none moved; a weight alone that rises moves
    /// nothing.
    pub fn add(&mut self, edges: &[u32]) -> Result<Option<u32>, Refusal> {
        self.work.resize(self.parents.len(), edges.len() / STRIDE);
        tables::add(&mut self.parents, &mut self.weights, edges, &mut self.work)
    }

    /// Adds all edges of another net; answers what [`Net::add`] does.
    pub fn join(&mut self, other: &Net) -> Result<Option<u32>, Refusal> {
        self.work.resize(self.parents.len(), other.parents.len());
        tables::join(&mut self.parents, &mut self.weights, &other.parents, &other.weights, &mut self.work)
    }

    /// The net as bytes: for each vertex its parent and its weight, little-endian 32-bit numbers.
    pub fn save(&self) -> Result<Vec<u8>, Refusal> {
        let mut bytes = vec![0; 8 * self.parents.len()];
        tables::save(&self.parents, &self.weights, &mut bytes)?;
        Ok(bytes)
    }

    /// The net that was saved as these bytes.
    pub fn read(bytes: &[u8]) -> Result<Net, Refusal> {
        let vertices = bytes.len() / 8;
        let mut net = Net { parents: vec![0; vertices], weights: vec![0; vertices], ..Net::default() };
        tables::read(&mut net.parents, &mut net.weights, bytes)?;
        Ok(net)
    }

    /// Cuts the forest into groups of a weight at most `limit`, and packs the groups into blocks.
    pub fn divide(&self, limit: u32, blocks: u32) -> Result<Division, Refusal> {
        // no block is refused as too many are, and needs no table
        let blocks = if blocks > MAX_BLOCKS { 0 } else { blocks };
        let mut its = Division::sized(self.parents.len(), blocks);
        tables::divide(
            &self.parents,
            &self.weights,
            limit,
            blocks,
            &mut its.carried,
            &mut its.top,
            &mut its.block,
            &mut its.block_loads,
        )?;
        Ok(its)
    }

    /// Divides, and reports what the division costs, given all edges of the net in any order.
    pub fn report(&mut self, limit: u32, blocks: u32, edges: &[u32]) -> Result<Report, Refusal> {
        let blocks = if blocks > MAX_BLOCKS { 0 } else { blocks };
        let vertices = self.parents.len();
        let zeros = || vec![0; vertices];
        let mut its = Division::sized(vertices, blocks);
        let (mut edge_blocks, mut reach) = (vec![0; edges.len() / STRIDE], zeros());
        let (mut block_count, mut edges_taken) = (zeros(), zeros());
        self.work.resize(vertices, edges.len() / STRIDE);
        let (bound, volume, share) = tables::report(
            &self.parents,
            &self.weights,
            limit,
            blocks,
            edges,
            &mut its.carried,
            &mut its.top,
            &mut its.block,
            &mut its.block_loads,
            &mut edge_blocks,
            &mut reach,
            &mut block_count,
            &mut edges_taken,
            &mut zeros(),
            &mut zeros(),
            &mut self.work,
        )?;
        Ok(Report { division: its, edge_blocks, reach, block_count, edges_taken, bound, volume, share })
    }

    /// What lies between two vertices of which neither stands above the other, given all edges of the net in any order.
    ///
    /// ```
    /// let edges = [0, 2, 1, 1, 2, 1, 2, 3, 1];
    /// let mut net = niqastul::Net::new(5)?;
    /// net.add(&edges)?;
    /// let between = net.separate(0, 1, &edges)?;
    /// assert_eq!((between.vertices, between.lowest), (vec![2, 3], Some(2)));
    /// assert_eq!(net.separate(0, 4, &edges)?.lowest, None); // no chain of edges
    /// assert_eq!(net.separate(0, 3, &edges), Err(niqastul::Refusal::Related));
    /// # Ok::<(), niqastul::Refusal>(())
    /// ```
    pub fn separate(&mut self, one: u32, other: u32, edges: &[u32]) -> Result<Separator, Refusal> {
        let vertices = self.parents.len();
        let zeros = || vec![0; vertices];
        let mut separator = zeros();
        self.work.resize(vertices, edges.len() / STRIDE);
        let (count, lowest) = tables::separate(
            &self.parents,
            &self.weights,
            one,
            other,
            edges,
            &mut separator,
            &mut zeros(),
            &mut zeros(),
            &mut self.work,
        )?;
        Ok(Separator { vertices: separator[..count as usize].to_vec(), lowest })
    }
}

/// A net divided.
#[derive(Clone, Debug, PartialEq, Eq)]
pub struct Division {
    /// What each vertex carries: its weight and what its children carry that are not cut off. At a top, the weight of its group.
    pub carried: Vec<u32>,
    /// The highest vertex of each vertex's group. One that is its own top and has a parent is cut off from it.
    pub top: Vec<u32>,
    /// The block of each vertex, from 0.
    pub block: Vec<u32>,
    /// The load of each block.
    pub block_loads: Vec<u32>,
}

/// What a division costs.
#[derive(Clone, Debug, PartialEq, Eq)]
pub struct Report {
    pub division: Division,
    /// The block of each edge: that of its lower end.
    pub edge_blocks: Vec<u32>,
    /// How many vertices above a vertex have an edge to it or to a vertex that it is above.
    pub reach: Vec<u32>,
    /// The number of different blocks among the edges of a vertex.
    pub block_count: Vec<u32>,
    /// How many of its edges, in the order of the list, that count took: up to and with the first by which all blocks are met, or all.
    pub edges_taken: Vec<u32>,
    /// The sum of the reaches of the vertices that are cut off.
    pub bound: u64,
    /// The sum of (block count - 1) over the vertices with an edge; never above the bound.
    pub volume: u64,
    pub share: Share,
}

/// The even share: the total of the weights divided by the number of blocks.
#[derive(Clone, Copy, Debug, PartialEq, Eq)]
pub struct Share {
    quotient: u32,
    remainder: u32,
    blocks: u32,
}

impl Share {
    /// The whole quotient.
    pub fn quotient(self) -> u32 {
        self.quotient
    }

    /// What is left of the total, below the number of blocks.
    pub fn remainder(self) -> u32 {
        self.remainder
    }

    /// The quotient times the number of blocks plus the remainder: the total.
    pub fn check_sum(self) -> u64 {
        u64::from(self.quotient) * u64::from(self.blocks) + u64::from(self.remainder)
    }
}

/// What lies between two vertices.
#[derive(Clone, Debug, PartialEq, Eq)]
pub struct Separator {
    /// The vertices that stand above both, by rising rank. Every chain of edges from one to the other passes one of them.
    pub vertices: Vec<u32>,
    /// The lowest of them, or `None` if there are none: then there is no chain.
    pub lowest: Option<u32>,
}

impl Division {
    fn sized(vertices: usize, blocks: u32) -> Division {
        let zeros = |length| vec![0; length];
        Division { carried: zeros(vertices), top: zeros(vertices), block: zeros(vertices), block_loads: zeros(blocks as usize) }
    }
}

/// Nets are equal if their forests and weights are.
impl PartialEq for Net {
    fn eq(&self, other: &Net) -> bool {
        self.parents == other.parents && self.weights == other.weights
    }
}

impl Eq for Net {}

/// An edge list in vertex numbers, as ranks in an order: the vertex `order[r]` has rank r. Each edge keeps its rows.
pub fn relabel(order: &[u32], edges: &[u32]) -> Result<Vec<u32>, Refusal> {
    let (mut out, mut inverse) = (vec![0; edges.len()], vec![0; order.len()]);
    tables::relabel(order, edges, &mut out, &mut inverse)?;
    Ok(out)
}
