//! Each call through the safe interface: document 01's nets on paper, every refusal that safe code can meet, tables left alone.
use niqastul::{relabel, tables, Net, Refusal, ABSENT, MAX_LIMIT, MAX_TOTAL, MAX_VERTICES};

// the edges of document 01's whole case, one row each, in vertex numbers and in ranks
const ORDER: [u32; 6] = [3, 0, 1, 2, 4, 5];
const NUMBERED: [u32; 18] = [3, 1, 1, 3, 4, 1, 0, 2, 1, 0, 4, 1, 1, 5, 1, 1, 3, 1];
const WHOLE_CASE: [u32; 18] = [0, 2, 1, 0, 4, 1, 1, 3, 1, 1, 4, 1, 2, 5, 1, 2, 0, 1];

fn net(vertices: usize, edges: &[u32]) -> Net {
    let mut net = Net::new(vertices).unwrap();
    net.add(edges).unwrap();
    net
}

#[test]
fn nets_on_paper() {
    let cases: [(usize, &[u32], &[u32]); 6] = [
        (1, &[], &[ABSENT]),
        (3, &[0, 1, 1, 1, 2, 1], &[1, 2, ABSENT]),
        (4, &[0, 1, 1, 0, 2, 1, 0, 3, 1], &[1, 2, 3, ABSENT]),
        (4, &[0, 3, 1, 1, 3, 1, 2, 3, 1], &[3, 3, 3, ABSENT]),
        (3, &[0, 2, 1], &[2, ABSENT, ABSENT]),
        (3, &[0, 1, 1, 0, 1, 1], &[1, ABSENT, ABSENT]),
    ];
    for (vertices, edges, parents) in cases {
        assert_eq!(net(vertices, edges).parents(), parents);
    }
    assert_eq!(net(3, &[0, 1, 1, 0, 1, 1]).weights(), [2, 0, 0]);
}

#[test]
fn rows() {
    // each repeat has rows of its own, and they go to the lower end, whichever is written first
    let its = net(3, &[0, 1, 6, 1, 0, 1, 2, 1, 3]);
    assert_eq!((its.parents(), its.weights()), (&[1, 2, ABSENT][..], &[7, 3, 0][..]));
    // weights, loads and share are of rows; reaches, block counts and edges taken are of edges
    let edges = [0, 2, 5, 1, 2, 1, 0, 2, 6, 1, 2, 2];
    let report = net(3, &edges).report(11, 2, &edges).unwrap();
    assert_eq!(report.division.carried, [11, 3, 3]);
    assert_eq!((report.division.block_loads, report.edge_blocks), (vec![11, 3], vec![0, 1, 0, 1]));
    assert_eq!((report.reach, report.block_count, report.edges_taken), (vec![1, 1, 0], vec![1, 1, 2], vec![2, 2, 2]));
    assert_eq!((report.bound, report.volume, report.share.quotient(), report.share.remainder()), (1, 1, 7, 0));
    // the same edges with other rows are not the net's own
    assert_eq!(net(3, &edges).report(11, 2, &[0, 2, 5, 1, 2, 1, 0, 2, 6, 1, 2, 3]), Err(Refusal::OtherEdges));
}

#[test]
fn bad_rows() {
    let before = net(3, &[0, 1, 1]);
    let mut after = before.clone();
    for rows in [0, 7, u32::MAX] {
        let (edges, refused) = ([0, 1, 1, 1, 2, rows], Err(Refusal::BadRows));
        assert_eq!(after.add(&edges), refused.map(|()| None));
        assert_eq!(after.report(1, 1, &edges).map(drop), refused);
        assert_eq!(after.separate(0, 2, &edges).map(drop), refused);
        assert_eq!(relabel(&[2, 1, 0], &edges).map(drop), refused);
    }
    // the first faulty edge decides, and at one edge a vertex out of range, then a loop
    assert_eq!(after.add(&[0, 1, 7, 0, 3, 1]), Err(Refusal::BadRows));
    assert_eq!(after.add(&[0, 3, 1, 0, 1, 7]), Err(Refusal::BadVertex));
    assert_eq!(after.add(&[1, 1, 7]), Err(Refusal::Loop));
    assert_eq!(after.add(&[3, 3, 7]), Err(Refusal::BadVertex));
    assert_eq!(after, before);
    assert_eq!(Refusal::BadRows.number(), 32);
    assert_eq!(Refusal::BadRows.to_string(), "refused 32: the rows of an edge are not 1 to 6");
}

#[test]
fn added_and_joined() {
    let whole = net(3, &[0, 2, 1, 0, 1, 5]);
    let mut added = net(3, &[0, 2, 1]);
    added.add(&[1, 0, 5]).unwrap();
    assert_eq!(added, whole);
    let mut joined = net(3, &[0, 2, 1]);
    joined.join(&net(3, &[0, 1, 5])).unwrap();
    assert_eq!(joined, whole);
    assert_eq!(joined.parents(), [1, 2, ABSENT]);
    assert_eq!(joined.weights(), [6, 0, 0]);
    joined.join(&whole.clone()).unwrap();
    assert_eq!(joined.weights(), [12, 0, 0]);
}

#[test]
fn where_the_forest_moved() {
    let mut its = Net::new(5).unwrap();
    assert_eq!(its.add(&[]), Ok(None));
    assert_eq!(its.add(&[2, 3, 1]), Ok(Some(2)));
    assert_eq!(its.add(&[3, 2, 4]), Ok(None));
    assert_eq!(its.weights(), [0, 0, 5, 0, 0]);
    // the edge goes up to vertex 3, which had no parent
    assert_eq!(its.add(&[4, 2, 1]), Ok(Some(3)));
    assert_eq!(its.add(&[2, 4, 1, 0, 4, 1, 0, 2, 1]), Ok(Some(0)));
    assert_eq!(its.parents(), [2, ABSENT, 3, 4, ABSENT]);
    assert_eq!(its.join(&net(5, &[1, 3, 1, 2, 4, 1])), Ok(Some(1)));
    assert_eq!(its.join(&its.clone()), Ok(None));
    // of the first net, whatever the second one has
    assert_eq!(net(5, &[3, 4, 1]).join(&its), Ok(Some(0)));
    assert_eq!(its.join(&net(5, &[3, 4, 1])), Ok(None));
    assert_eq!(its.add(&[0, 1, 1, 2, 2, 1]), Err(Refusal::Loop));
    assert_eq!(its.add(&[0, 1, 1]), Ok(Some(0)));
}

#[test]
fn saved_and_read() {
    let net = net(3, &[0, 2, 3]);
    let saved = net.save().unwrap();
    assert_eq!(saved[..8], [2, 0, 0, 0, 3, 0, 0, 0]);
    assert_eq!(Net::read(&saved), Ok(net));
    assert_eq!(Net::read(&saved[1..]), Err(Refusal::BadFile));
    assert_eq!(Net::read(&saved[8..20]), Err(Refusal::BadFile));
    assert_eq!(Net::read(&[0; 16]), Err(Refusal::BadParent));
    assert_eq!(Net::read(&[]), Err(Refusal::BadCount));
}

#[test]
fn relabelled() {
    assert_eq!(relabel(&ORDER, &NUMBERED).unwrap(), WHOLE_CASE);
    // rows that would be vertices are rows all the same
    assert_eq!(relabel(&[3, 0, 1, 2], &[3, 1, 3, 0, 2, 1]).unwrap(), [0, 2, 3, 1, 3, 1]);
    assert_eq!(relabel(&[], &[]), Err(Refusal::BadCount));
    for edges in [&[0][..], &[0, 1], &[0, 1, 1, 0]] {
        assert_eq!(relabel(&[0, 1], edges), Err(Refusal::WrongLength));
    }
    assert_eq!(relabel(&[0, 0], &[0, 1, 1]), Err(Refusal::BadOrder));
    assert_eq!(relabel(&[1, 0], &[0, 2, 1]), Err(Refusal::BadVertex));
    assert_eq!(relabel(&[1, 0], &[1, 1, 1]), Err(Refusal::Loop));
}

#[test]
fn divided() {
    let net = net(6, &WHOLE_CASE);
    let division = net.divide(4, 2).unwrap();
    assert_eq!(division.carried, [3, 2, 4, 2, 2, 2]);
    assert_eq!(division.top, [2, 5, 2, 5, 5, 5]);
    assert_eq!(division.block, [0, 1, 0, 1, 1, 1]);
    assert_eq!(division.block_loads, [4, 2]);
    assert_eq!(net.divide(3, 1).unwrap().top, [0, 5, 5, 5, 5, 5]);
    assert_eq!(net.divide(2, 2), Err(Refusal::TooHeavy));
    assert_eq!(net.divide(0, 2), Err(Refusal::BadLimit));
    assert_eq!(net.divide(MAX_LIMIT + 1, 2), Err(Refusal::BadLimit));
    assert_eq!(net.divide(MAX_LIMIT, 2).unwrap().block_loads, [6, 0]);
    assert_eq!(net.divide(4, 0), Err(Refusal::BadLimit));
    assert_eq!(net.divide(4, 1001), Err(Refusal::BadLimit));
    assert_eq!(net.divide(4, u32::MAX), Err(Refusal::BadLimit));
    assert_eq!(net.divide(4, 1000).unwrap().block_loads.len(), 1000);
    assert_eq!(Net::default().divide(4, u32::MAX), Err(Refusal::BadCount));
}

#[test]
fn divided_lent_tables() {
    let (mut carried, mut top, mut block, mut loads) = ([7], [7], [7], [7, 7]);
    let mut divide = |parents: &[u32], weights: &[u32], blocks| {
        let number = tables::divide(parents, weights, 1, blocks, &mut carried, &mut top, &mut block, &mut loads);
        (number, carried, top, block, loads)
    };
    let untouched = ([7], [7], [7], [7, 7]);
    let cases: [(&[u32], &[u32], u32, Refusal); 5] = [
        (&[], &[1], 3, Refusal::BadCount),
        (&[0], &[2], 3, Refusal::WrongLength),
        (&[0], &[2, 0], 2, Refusal::WrongLength),
        (&[0], &[2], 2, Refusal::Damaged),
        (&[ABSENT], &[2], 2, Refusal::TooHeavy),
    ];
    for (parents, weights, blocks, refusal) in cases {
        let (number, carried, top, block, loads) = divide(parents, weights, blocks);
        assert_eq!((number, (carried, top, block, loads)), (Err(refusal), untouched));
    }
    assert_eq!(divide(&[ABSENT], &[1], 2), (Ok(()), [1], [0], [0], [1, 0]));
}

#[test]
fn reported() {
    let (mut net, edges) = (net(6, &WHOLE_CASE), WHOLE_CASE);
    let report = net.report(4, 2, &edges).unwrap();
    assert_eq!(Ok(report.division), net.divide(4, 2));
    assert_eq!(report.edge_blocks, [0, 0, 1, 1, 0, 0]);
    assert_eq!(report.reach, [2, 2, 2, 1, 1, 0]);
    assert_eq!(report.block_count, [1, 1, 1, 1, 2, 1]);
    assert_eq!(report.edges_taken, [3, 2, 3, 1, 2, 1]);
    assert_eq!((report.bound, report.volume), (2, 1));
    assert_eq!((report.share.quotient(), report.share.remainder()), (3, 0));
    let report = net.report(4, 1, &edges).unwrap();
    assert_eq!((report.bound, report.volume), (2, 0));
    assert_eq!(net.report(4, 2, &edges[1..]), Err(Refusal::WrongLength));
    assert_eq!(net.report(4, u32::MAX, &edges), Err(Refusal::BadLimit));
    assert_eq!(net.report(4, 2, &edges[2..]), Err(Refusal::WrongLength));
    assert_eq!(net.report(4, 2, &[0, 6, 1]), Err(Refusal::BadVertex));
    assert_eq!(net.report(4, 2, &[0, 0, 1]), Err(Refusal::Loop));
    assert_eq!(net.report(2, 2, &edges), Err(Refusal::TooHeavy));
    assert_eq!(net.report(4, 2, &edges[3..]), Err(Refusal::OtherEdges));
}

#[test]
fn edges_taken() {
    // vertex 2 has edges of both blocks, and which of them come first is told by the list
    let moved = [0, 2, 1, 0, 4, 1, 1, 3, 1, 1, 4, 1, 2, 0, 1, 5, 2, 1];
    let mut net = net(6, &WHOLE_CASE);
    let (one, other) = (net.report(3, 2, &WHOLE_CASE).unwrap(), net.report(3, 2, &moved).unwrap());
    assert_eq!(one.edge_blocks, [0, 0, 1, 1, 1, 0]);
    assert_eq!(one.block_count, [1, 1, 2, 1, 2, 1]);
    assert_eq!(one.edges_taken, [3, 2, 2, 1, 2, 1]);
    assert_eq!(other.edges_taken, [3, 2, 3, 1, 2, 1]);
    assert_eq!((other.block_count, other.bound, other.volume), (one.block_count, one.bound, one.volume));
    assert_eq!(net.report(3, 1, &WHOLE_CASE).unwrap().edges_taken, [1; 6]);
    assert_eq!(net.report(3, 1000, &WHOLE_CASE).unwrap().edges_taken, [3, 2, 3, 1, 2, 1]);
    assert_eq!(Net::new(2).unwrap().report(1, 1, &[]).unwrap().edges_taken, [0, 0]);
}

#[test]
fn even_share() {
    // the check sum is the total, be it divided by the number of blocks, with a remainder or not, or below it
    let mut its = net(6, &WHOLE_CASE);
    for (blocks, quotient, remainder) in [(1, 6, 0), (2, 3, 0), (4, 1, 2), (5, 1, 1), (6, 1, 0), (7, 0, 6), (1000, 0, 6)] {
        let share = its.report(4, blocks, &WHOLE_CASE).unwrap().share;
        assert_eq!((share.quotient(), share.remainder()), (quotient, remainder));
        assert_eq!(share.check_sum(), its.weights().iter().map(|&weight| u64::from(weight)).sum::<u64>());
    }
    let share = Net::new(2).unwrap().report(1, 3, &[]).unwrap().share;
    assert_eq!((share.quotient(), share.remainder(), share.check_sum()), (0, 0, 0));
}

#[test]
fn compared() {
    let work = &mut tables::Work::default();
    work.resize(2, 1);
    let (mut carried, mut top, mut block, mut loads) = ([7; 2], [7; 2], [7; 2], [7]);
    let (mut edge_blocks, mut reach, mut count, mut taken) = ([7], [7; 2], [7; 2], [7; 3]);
    let (mut parents, mut weights) = ([7; 2], [7; 2]);
    let mut report = |net: [u32; 2], weight, length: usize| {
        let answer = tables::report(
            &net,
            &[weight, 0],
            1,
            1,
            &[0, 1, 1],
            &mut carried,
            &mut top,
            &mut block,
            &mut loads,
            &mut edge_blocks,
            &mut reach,
            &mut count,
            &mut taken[..length],
            &mut parents,
            &mut weights,
            work,
        )
        .map(|(bound, volume, share)| (bound, volume, share.quotient(), share.remainder()));
        (answer, parents, weights, carried, taken)
    };
    let untouched = |refusal| (Err(refusal), [7; 2], [7; 2], [7; 2], [7; 3]);
    assert_eq!(report([0, ABSENT], 0, 1), untouched(Refusal::WrongLength));
    assert_eq!(report([0, ABSENT], 0, 3), untouched(Refusal::WrongLength));
    assert_eq!(report([0, ABSENT], 0, 2), untouched(Refusal::Damaged));
    assert_eq!(report([1, ABSENT], 0, 2), (Err(Refusal::OtherEdges), [1, ABSENT], [1, 0], [7; 2], [7; 3]));
    assert_eq!(report([1, ABSENT], 1, 2), (Ok((0, 0, 1, 0)), [1, ABSENT], [1, 0], [1, 1], [1, 1, 7]));
}

#[test]
fn refusals() {
    assert_eq!(Net::new(0), Err(Refusal::BadCount));
    assert_eq!(Net::new(MAX_VERTICES + 1), Err(Refusal::BadCount));
    assert!(Net::new(MAX_VERTICES).is_ok());
    let before = net(3, &[0, 1, 1]);
    let mut after = before.clone();
    for edges in [&[0][..], &[0, 1], &[0, 1, 1, 0], &[0, 1, 1, 0, 2]] {
        assert_eq!(after.add(edges), Err(Refusal::WrongLength));
    }
    assert_eq!(after.add(&[0, 1, 1, 2, 3, 1]), Err(Refusal::BadVertex));
    assert_eq!(after.add(&[2, 2, 1, 2, 3, 1]), Err(Refusal::Loop));
    assert_eq!(after.join(&net(4, &[])), Err(Refusal::UnlikeCounts));
    assert_eq!(after, before);
}

#[test]
fn lent_tables() {
    let mut work = tables::Work::default();
    let (mut parents, mut weights) = ([1, 0], [0, 0]);
    work.resize(2, 1);
    assert_eq!(tables::add(&mut parents, &mut weights, &[0, 1, 6], &mut work), Err(Refusal::Damaged));
    parents[1] = ABSENT;
    weights[0] = MAX_TOTAL - 5;
    assert_eq!(tables::add(&mut parents, &mut weights, &[0, 1, 6], &mut work), Err(Refusal::Full));
    assert_eq!(tables::add(&mut parents, &mut weights[..1], &[0, 1, 6], &mut work), Err(Refusal::WrongLength));
    weights[0] -= 1;
    assert_eq!(tables::add(&mut parents, &mut weights, &[0, 1, 6], &mut work), Ok(None));
    assert_eq!((parents, weights), ([1, ABSENT], [MAX_TOTAL, 0]));
    work.resize(2, 2);
    assert_eq!(tables::join(&mut parents, &mut weights, &[1, ABSENT], &[1, 0], &mut work), Err(Refusal::Full));
    assert_eq!(Refusal::Full.number(), 20);
    // nets of unlike counts: the work table is as long as both together, and its length comes first
    let (unlike, none) = ([ABSENT; 3], [0; 3]);
    assert_eq!(tables::join(&mut parents, &mut weights, &unlike, &none, &mut work), Err(Refusal::WrongLength));
    work.resize(2, 3);
    assert_eq!(tables::join(&mut parents, &mut weights, &unlike, &none, &mut work), Err(Refusal::UnlikeCounts));
    work.resize(2, 2);
    parents[0] = ABSENT;
    assert_eq!(tables::join(&mut parents, &mut weights, &[1, ABSENT], &[0, 0], &mut work), Ok(Some(0)));
}
