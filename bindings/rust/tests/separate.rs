//! What lies between two vertices through the safe interface: document 01's whole case, every refusal and their order, tables left alone.
use niqastul::{tables, Net, Refusal, Separator, ABSENT, MAX_TOTAL, STRIDE};

// the edges of document 01's whole case, in ranks, which leave the last vertex by itself
const EDGES: [u32; 18] = [0, 2, 1, 0, 4, 1, 1, 3, 1, 1, 4, 1, 2, 5, 1, 2, 0, 1];

fn whole_case() -> Net {
    let mut net = Net::new(7).unwrap();
    net.add(&EDGES).unwrap();
    net
}

#[test]
fn separators() {
    let mut net = whole_case();
    let cases: [(u32, u32, &[u32]); 5] = [(0, 1, &[4, 5]), (2, 3, &[4, 5]), (0, 3, &[4, 5]), (1, 6, &[]), (5, 6, &[])];
    for (one, other, vertices) in cases {
        let wanted = Separator { vertices: vertices.to_vec(), lowest: vertices.first().copied() };
        assert_eq!(net.separate(one, other, &EDGES), Ok(wanted.clone()));
        assert_eq!(net.separate(other, one, &EDGES), Ok(wanted));
    }
    assert_eq!(net, whole_case());
    assert_eq!(Net::new(2).unwrap().separate(0, 1, &[]), Ok(Separator { vertices: vec![], lowest: None }));
}

#[test]
fn refusals() {
    let mut net = whole_case();
    for (one, other) in [(0, 0), (6, 6), (0, 2), (5, 1), (4, 5)] {
        assert_eq!(net.separate(one, other, &EDGES), Err(Refusal::Related));
        assert_eq!(net.separate(other, one, &EDGES[STRIDE..]), Err(Refusal::OtherEdges));
    }
    assert_eq!(net.separate(0, 1, &EDGES[1..]), Err(Refusal::WrongLength));
    assert_eq!(net.separate(7, 0, &EDGES[1..]), Err(Refusal::WrongLength));
    for rank in [7, ABSENT] {
        assert_eq!(net.separate(rank, 0, &[0, 0, 0]), Err(Refusal::BadVertex));
        assert_eq!(net.separate(0, rank, &[0, 0, 0]), Err(Refusal::BadVertex));
    }
    assert_eq!(net.separate(0, 0, &[1, 1, 1, 0, 7, 1]), Err(Refusal::Loop));
    assert_eq!(net.separate(0, 0, &[0, 7, 1, 1, 1, 1]), Err(Refusal::BadVertex));
    assert_eq!(net.separate(0, 0, &[0, 6, 0, 1, 1, 1]), Err(Refusal::BadRows));
    assert_eq!(Net::default().separate(0, 1, &[0]), Err(Refusal::BadCount));
    assert_eq!(Refusal::Related.number(), 31);
    assert_eq!(Refusal::Related.to_string(), "refused 31: the two ranks are equal, or one stands above the other");
}

#[test]
fn lent_tables() {
    let work = &mut tables::Work::default();
    work.resize(3, 2);
    let (mut separator, mut parents, mut weights) = ([7; 4], [7; 3], [7; 3]);
    let mut separate = |weight, other, edges: [u32; 6], length: usize| {
        for table in [&mut work.ends, &mut work.jump, &mut work.lower] {
            table.fill(7);
        }
        let lent = &mut separator[..length];
        let answer = tables::separate(&[2, 2, ABSENT], &[1, weight, 0], 0, other, &edges, lent, &mut parents, &mut weights, work);
        let cleared = [&work.ends, &work.jump, &work.lower].map(|table| table.iter().all(|&entry| entry == 0));
        (answer, separator, parents, weights, cleared)
    };
    let untouched = |refusal| (Err(refusal), [7; 4], [7; 3], [7; 3], [false; 3]);
    let own = [0, 2, 1, 2, 1, 1];
    assert_eq!(separate(1, 1, own, 2), untouched(Refusal::WrongLength));
    assert_eq!(separate(1, 1, own, 4), untouched(Refusal::WrongLength));
    assert_eq!(separate(MAX_TOTAL, 3, own, 3), untouched(Refusal::Damaged));
    assert_eq!(separate(1, 3, [0, 0, 1, 1, 1, 1], 3), untouched(Refusal::BadVertex));
    assert_eq!(separate(1, 1, [0, 0, 1, 0, 3, 1], 3), untouched(Refusal::Loop));
    assert_eq!(separate(1, 1, [0, 2, 1, 2, 1, 0], 3), untouched(Refusal::BadRows));
    let compared = |answer, separator| (answer, separator, [2, 2, ABSENT], [1, 1, 0], [true; 3]);
    assert_eq!(separate(2, 0, own, 3), compared(Err(Refusal::OtherEdges), [7; 4]));
    assert_eq!(separate(1, 0, own, 3), compared(Err(Refusal::Related), [7; 4]));
    assert_eq!(separate(1, 2, own, 3), compared(Err(Refusal::Related), [7; 4]));
    assert_eq!(separate(1, 1, own, 3), compared(Ok((1, Some(2))), [2, 7, 7, 7]));
}
