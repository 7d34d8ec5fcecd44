//! A list added in several threads is the list added at once; and calls on different tables run in different threads.
use niqastul::{relabel, tables, Net, Refusal, ABSENT, MAX_EDGES, MAX_ROWS, MAX_TOTAL, STRIDE};

const THREADS: [usize; 6] = [0, 1, 2, 3, 8, usize::MAX];

/// Random numbers (SplitMix64), the same in every run.
struct Random(u64);

impl Random {
    fn below(&mut self, bound: usize) -> usize {
        self.0 = self.0.wrapping_add(0x9E37_79B9_7F4A_7C15);
        let mut z = self.0;
        z = (z ^ z >> 30).wrapping_mul(0xBF58_476D_1CE4_E5B9);
        z = (z ^ z >> 27).wrapping_mul(0x94D0_49BB_1331_11EB);
        ((z ^ z >> 31) % bound as u64) as usize
    }

    /// So many edges on two or more vertices: anywhere, between neighbours, or all at one vertex; with any rows.
    fn edges(&mut self, vertices: usize, count: usize) -> Vec<u32> {
        let (shape, hub) = (self.below(3), self.below(vertices));
        let mut list = Vec::new();
        while list.len() < STRIDE * count {
            let a = if shape == 2 { hub } else { self.below(vertices) };
            let b = if shape == 1 { (a + 1) % vertices } else { self.below(vertices) };
            if a != b {
                list.extend([a as u32, b as u32, 1 + self.below(MAX_ROWS as usize) as u32]);
            }
        }
        list
    }
}

fn net(vertices: usize, edges: &[u32]) -> Net {
    let mut net = Net::new(vertices).unwrap();
    net.add(edges).unwrap();
    net
}

/// The list added in so many threads does what it does in one: its answer, and the net afterwards. The answer is the lowest rank whose
/// parent is another than before.
fn same_as_one(before: &Net, edges: &[u32]) -> Result<Option<u32>, Refusal> {
    let mut one = before.clone();
    let answer = one.add(edges);
    let mut ranks = 0..before.parents().len();
    let moved = ranks.find(|&x| one.parents()[x] != before.parents()[x]).map(|x| x as u32);
    assert_eq!(answer.unwrap_or(None), moved);
    for threads in THREADS {
        let mut several = before.clone();
        assert_eq!(several.add_in_threads(edges, threads), answer, "{threads} threads");
        assert_eq!(several, one, "{threads} threads");
    }
    answer
}

#[test]
fn many_nets() {
    let mut random = Random(1);
    let mut met = [0; 3];
    for _ in 0..200 {
        let vertices = 2 + random.below(20);
        let (first, second) = (random.below(30), random.below(300));
        let before = net(vertices, &random.edges(vertices, first));
        match same_as_one(&before, &random.edges(vertices, second)).unwrap() {
            None => met[0] += 1,
            Some(0) => met[1] += 1,
            Some(_) => met[2] += 1,
        }
    }
    assert!(met.iter().all(|&times| times > 20), "none, the first and another have to move: {met:?}");
}

#[test]
fn moved_as_one() {
    // the line of the net itself tells: what moved in a part that another thread grew from nothing does not count
    let (left, right): (Vec<u32>, Vec<u32>) = ([3, 4, 1].repeat(20), [1, 2, 6].repeat(20));
    let lists = [[&left[..], &right], [&right, &left]].map(|parts| parts.concat());
    for edges in lists {
        assert_eq!(same_as_one(&net(5, &[]), &edges), Ok(Some(1)));
        assert_eq!(same_as_one(&net(5, &[1, 2, 1]), &edges), Ok(Some(3)));
        assert_eq!(same_as_one(&net(5, &[3, 4, 1]), &edges), Ok(Some(1)));
        assert_eq!(same_as_one(&net(5, &[1, 2, 1, 3, 4, 1]), &edges), Ok(None));
        // vertex 1 has another parent then, and vertex 0 the same
        assert_eq!(same_as_one(&net(5, &[0, 1, 1, 1, 4, 1]), &edges), Ok(Some(1)));
    }
}

#[test]
fn few_edges() {
    assert_eq!(same_as_one(&net(1, &[]), &[]), Ok(None));
    assert_eq!(same_as_one(&net(3, &[0, 2, 1]), &[]), Ok(None));
    assert_eq!(same_as_one(&net(3, &[0, 2, 1]), &[0, 1, 1]), Ok(Some(0)));
    assert_eq!(same_as_one(&net(3, &[0, 2, 1]), &[2, 1, 3]), Ok(Some(1)));
    assert_eq!(same_as_one(&net(3, &[]), &[0, 2, 1, 1, 0, 6]), Ok(Some(0)));
    assert_eq!(same_as_one(&net(3, &[]), &[0, 2, 1, 1, 0, 6, 2, 1, 2]), Ok(Some(0)));
    assert_eq!(same_as_one(&net(2, &[]), &[0, 1, 1, 1, 0, 2, 0, 1, 3, 0, 1, 4]), Ok(Some(0)));
}

#[test]
fn refused_as_one() {
    let before = net(10, &[0, 9, 1, 3, 4, 1]);
    let good = Random(2).edges(10, 50);
    let faulty = |faults: &[(usize, Refusal)]| {
        let mut edges = good.clone();
        for &(edge, refusal) in faults {
            let place = STRIDE * edge;
            match refusal {
                Refusal::BadRows => edges[place + 2] = MAX_ROWS + 1,
                Refusal::Loop => edges[place + 1] = edges[place],
                _ => edges[place + 1] = 10,
            }
        }
        edges
    };
    // in each part, and in two: the first of the list counts, whichever part is done first
    let refusals = [Refusal::BadVertex, Refusal::Loop, Refusal::BadRows];
    for refusal in refusals {
        for edge in [0, 24, 25, 49] {
            assert_eq!(same_as_one(&before, &faulty(&[(edge, refusal)])), Err(refusal));
        }
        for other in refusals {
            assert_eq!(same_as_one(&before, &faulty(&[(20, refusal), (30, other)])), Err(refusal));
        }
    }
    // lists that are not whole edges, where they begin and where they end
    for part in [&good[1..], &good[2..], &good[..good.len() - 1], &good[..good.len() - 2]] {
        assert_eq!(same_as_one(&before, part), Err(Refusal::WrongLength));
    }
    assert_eq!(same_as_one(&Net::default(), &good), Err(Refusal::BadCount));
    assert_eq!(same_as_one(&Net::default(), &[]), Err(Refusal::BadCount));
}

/// A net of three vertices with the largest total less so much, by joins.
fn nearly_full(less: u32) -> Net {
    let (mut full, mut rest) = (net(3, &[0, 2, 1]), MAX_TOTAL - 1 - less);
    let mut power = full.clone();
    while rest > 0 {
        if rest % 2 == 1 {
            full.join(&power).unwrap();
        }
        rest /= 2;
        if rest > 0 {
            power.join(&power.clone()).unwrap();
        }
    }
    full
}

#[test]
fn full_as_one() {
    for rows in [1, MAX_ROWS] {
        let edges = [0, 1, rows].repeat(10);
        assert_eq!(same_as_one(&nearly_full(10 * rows), &edges), Ok(Some(0)));
        assert_eq!(same_as_one(&nearly_full(10 * rows - 1), &edges), Err(Refusal::Full));
        assert_eq!(same_as_one(&nearly_full(0), &edges), Err(Refusal::Full));
        assert_eq!(same_as_one(&nearly_full(0), &[&edges[..], &[1, 1, 1]].concat()), Err(Refusal::Loop));
    }
}

#[test]
fn long_lists_as_one() {
    // one edge more than a list may have: each part has fewer, and the rows fit
    let mut edges = [0, 1, 1].repeat(MAX_EDGES + 1);
    let mut net = net(3, &[0, 2, 1]);
    let before = net.clone();
    assert_eq!(net.add_in_threads(&edges, 2), Err(Refusal::Full));
    *edges.last_mut().unwrap() = 0;
    assert_eq!(net.add_in_threads(&edges, 2), Err(Refusal::BadRows));
    assert_eq!(net, before);
    edges.truncate(STRIDE * MAX_EDGES);
    assert_eq!(net.add_in_threads(&edges, 2), Ok(Some(0)));
    assert_eq!(net.weights(), [MAX_EDGES as u32 + 1, 0, 0]);
}

/// A history of calls on tables of its own; one net is read by all.
fn history(seed: u64, shared: &Net) -> (Net, Vec<u8>, Vec<u32>, niqastul::Report) {
    let mut random = Random(seed);
    let (vertices, mut all) = (shared.parents().len(), Vec::new());
    let mut net = Net::new(vertices).unwrap();
    for _ in 0..5 {
        let edges = random.edges(vertices, vertices);
        net.add(&edges).unwrap();
        all.extend(edges);
        assert_eq!(net.add(&[0, 0, 1]), Err(Refusal::Loop));
    }
    let report = net.report(vertices as u32 * 5 * MAX_ROWS, 7, &all).unwrap();
    let backward: Vec<u32> = (0..vertices as u32).rev().collect();
    let ranks = relabel(&backward, &all).unwrap();
    net.join(shared).unwrap();
    let bytes = net.save().unwrap();
    assert_eq!(Net::read(&bytes), Ok(net.clone()));
    (net, bytes, ranks, report)
}

#[test]
fn different_tables_in_different_threads() {
    let shared = net(2_000, &Random(3).edges(2_000, 4_000));
    let shared = &shared;
    let alone: Vec<_> = (0..8).map(|seed| history(seed, shared)).collect();
    let together: Vec<_> = std::thread::scope(|scope| {
        let threads: Vec<_> = (0..8).map(|seed| scope.spawn(move || history(seed, shared))).collect();
        threads.into_iter().map(|thread| thread.join().unwrap()).collect()
    });
    assert!(alone == together);
}

#[test]
fn parts_of_one_table_in_different_threads() {
    // tables that lie side by side in one allocation do not overlap
    let (mut parents, mut weights) = (vec![7; 4_000], vec![7; 4_000]);
    std::thread::scope(|scope| {
        for (seed, (parents, weights)) in parents.chunks_mut(500).zip(weights.chunks_mut(500)).enumerate() {
            scope.spawn(move || {
                let mut work = tables::Work::default();
                work.resize(500, 999);
                tables::start(parents, weights).unwrap();
                tables::add(parents, weights, &Random(seed as u64).edges(500, 999), &mut work).unwrap();
            });
        }
    });
    for (seed, (parents, weights)) in parents.chunks(500).zip(weights.chunks(500)).enumerate() {
        let alone = net(500, &Random(seed as u64).edges(500, 999));
        assert_eq!((alone.parents(), alone.weights()), (parents, weights));
        assert_eq!(parents[499], ABSENT);
    }
}
