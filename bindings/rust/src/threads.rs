//! Adding a long list in several threads: each grows the net of a part of the list, and the library joins them. The law of joined
//! forests has it that the tables are those of one call.

use crate::{Net, Refusal, MAX_EDGES, STRIDE};

impl Net {
    /// Adds edges as [`Net::add`] does, in up to so many threads: the same answer and the same tables, or the same refusal and the net
    /// as it was. Each thread has tables of its own, as long as the net's. A list of fewer than two edges to a vertex is added in one
    /// thread, because joining the parts would take longer than growing them.
    ///
    /// Panics if the system cannot start a thread; the net is then as it was.
    pub fn add_in_threads(&mut self, edges: &[u32], threads: usize) -> Result<Option<u32>, Refusal> {
        // no part has fewer edges than the net has vertices
        let count = edges.len() / STRIDE;
        let threads = threads.min(count / self.parents.len().max(1));
        // parts of a list that is too long may each be short enough, and their rows fit the net
        if threads < 2 || count > MAX_EDGES {
            return self.add(edges);
        }
        // a copy, so that the net is as it was if a part is refused; work tables are only room, and go along
        let copy = Net { parents: self.parents.clone(), weights: self.weights.clone(), work: std::mem::take(&mut self.work) };
        match grow(copy, edges, threads) {
            Ok((net, moved)) => {
                *self = net;
                Ok(moved)
            }
            // a part or a join is refused exactly if the one call is, but perhaps for another reason
            Err(_) => self.add(edges),
        }
    }
}

/// A net with edges added, and where its forest moved: those of the right part are grown in another thread, from no edges, and joined
/// to the rest. Since parents only fall, the lowest of the answers that the net itself gets is the lowest rank that moved in all.
fn grow(mut net: Net, edges: &[u32], threads: usize) -> Result<(Net, Option<u32>), Refusal> {
    if threads < 2 {
        let moved = net.add(edges)?;
        return Ok((net, moved));
    }
    let others = threads / 2;
    let (left, right) = cut(edges, threads, others);
    let empty = Net::new(net.parents.len())?;
    let (left, right) = std::thread::scope(|scope| {
        let right = scope.spawn(|| grow(empty, right, others));
        (grow(net, left, threads - others), right.join().unwrap())
    });
    let (mut whole, moved) = left?;
    let (right, _) = right?;
    let joined = whole.join(&right)?;
    Ok((whole, moved.into_iter().chain(joined).min()))
}

/// A list in two parts, of which the right is for so many of the threads. It is whole edges: where the list is not, the left part is
/// refused, as the list would be.
fn cut(edges: &[u32], threads: usize, others: usize) -> (&[u32], &[u32]) {
    edges.split_at(edges.len() - edges.len() / STRIDE / threads * others * STRIDE)
}

// Seen only here: a list cut within an edge would be refused in parts, and then added in one thread, with the right answer.
#[test]
fn cut_at_whole_edges() {
    for (count, threads) in (0..40).flat_map(|count| (2..9).map(move |threads| (count, threads))) {
        for rest in 0..STRIDE {
            let edges: Vec<u32> = (0..(STRIDE * count + rest) as u32).collect();
            let (left, right) = cut(&edges, threads, threads / 2);
            assert_eq!([left, right].concat(), edges);
            assert_eq!(right.len(), STRIDE * (count / threads) * (threads / 2));
            assert_eq!(left.len() % STRIDE, rest);
        }
    }
}
