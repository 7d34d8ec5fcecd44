//! From an order and an edge file to blocks: blocks marks.ord ties.rec want.rec
//! The files hold little-endian 32-bit numbers: vertices; two vertices and the rows of each edge; the limit and the number of blocks. A
//! line for each rank: rank, vertex, parent, weight, reach, top, block, block count; then bound, volume and even share (quotient,
//! remainder).
use niqastul::{relabel, Net, ABSENT};

fn numbers(path: &str) -> std::io::Result<Vec<u32>> {
    let bytes = std::fs::read(path)?;
    Ok(bytes.chunks_exact(4).map(|word| u32::from_le_bytes(word.try_into().unwrap())).collect())
}

fn main() -> Result<(), Box<dyn std::error::Error>> {
    let files: Vec<String> = std::env::args().skip(1).collect();
    let (order, edges, want) = (numbers(&files[0])?, numbers(&files[1])?, numbers(&files[2])?);
    let edges = relabel(&order, &edges)?;
    let mut net = Net::new(order.len())?;
    net.add(&edges)?;
    let its = net.report(want[0], want[1], &edges)?;
    for rank in 0..order.len() {
        let parent = net.parents()[rank];
        let parent = if parent == ABSENT { "-".to_string() } else { parent.to_string() };
        let (weight, reach, count) = (net.weights()[rank], its.reach[rank], its.block_count[rank]);
        println!(
            "{rank} {} {parent} {weight} {reach} {} {} {count}",
            order[rank], its.division.top[rank], its.division.block[rank]
        );
    }
    println!("bound {} volume {} share {} {}", its.bound, its.volume, its.share.quotient(), its.share.remainder());
    Ok(())
}
