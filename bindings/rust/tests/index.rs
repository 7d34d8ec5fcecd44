//! Runs of neighbours through the safe interface: values, lists in two parts, every refusal, tables left alone.
use niqastul::{tables, Index, Refusal, MAX_VERTICES, STRIDE};

// runs have no rows, be there one or several
const EDGES: [u32; 18] = [0, 2, 1, 0, 4, 6, 1, 3, 1, 1, 4, 3, 2, 5, 1, 2, 0, 2];

#[test]
fn runs() {
    let index = Index::new(7, &EDGES).unwrap();
    assert_eq!(index.starts(), [0, 3, 5, 8, 9, 11, 12, 12]);
    assert_eq!(index.runs(), [2, 4, 2, 3, 4, 0, 5, 0, 1, 0, 1, 2]);
    let runs: [&[u32]; 7] = [&[2, 4, 2], &[3, 4], &[0, 5, 0], &[1], &[0, 1], &[2], &[]];
    for (rank, run) in runs.into_iter().enumerate() {
        assert_eq!(index.neighbours(rank as u32), Ok(run));
    }
    // a part of the index, and no copy
    assert!(std::ptr::eq(index.neighbours(1).unwrap(), &index.runs()[3..5]));
    assert_eq!(Index::new(1, &[]).unwrap().neighbours(0), Ok(&[][..]));
}

#[test]
fn in_two_parts() {
    let whole = Index::new(7, &EDGES).unwrap();
    for place in (0..=EDGES.len()).step_by(STRIDE) {
        assert_eq!(Index::with_added(7, &EDGES[..place], &EDGES[place..]).unwrap(), whole);
    }
}

#[test]
fn refusals() {
    assert_eq!(Index::new(0, &[]), Err(Refusal::BadCount));
    assert_eq!(Index::new(MAX_VERTICES + 1, &[]), Err(Refusal::BadCount));
    assert_eq!(Index::new(usize::MAX, &[0]), Err(Refusal::BadCount));
    assert_eq!(Index::new(MAX_VERTICES, &[]).unwrap().neighbours(MAX_VERTICES as u32 - 1), Ok(&[][..]));
    assert_eq!(Index::new(3, &EDGES[1..]), Err(Refusal::WrongLength));
    // each list has to be whole edges by itself
    assert_eq!(Index::with_added(3, &[0], &[1, 1]), Err(Refusal::WrongLength));
    assert_eq!(Index::with_added(3, &[0, 1], &[1]), Err(Refusal::WrongLength));
    assert_eq!(Index::with_added(3, &[0, 1, 1], &[3, 3, 1]), Err(Refusal::BadVertex));
    assert_eq!(Index::with_added(3, &[1, 1, 1], &[0, 3, 1]), Err(Refusal::Loop));
    assert_eq!(Index::with_added(3, &[1, 0, 0], &[0, 3, 1]), Err(Refusal::BadRows));
    assert_eq!(Index::with_added(3, &[1, 0, 6], &[0, 2, 7]), Err(Refusal::BadRows));
    let index = Index::new(3, &[0, 1, 1]).unwrap();
    assert_eq!(index.neighbours(3), Err(Refusal::BadVertex));
    assert_eq!(index.neighbours(u32::MAX), Err(Refusal::BadVertex));
}

#[test]
fn lent_tables() {
    let (mut starts, mut neighbours) = ([7; 4], [7; 4]);
    let mut index = |vertices: usize, added: &[u32], length: usize| {
        let answer = tables::index(&[0, 1, 1], added, &mut starts[..vertices + 1], &mut neighbours[..length]);
        (answer, starts, neighbours)
    };
    let untouched = ([7; 4], [7; 4]);
    let cases: [(usize, &[u32], usize, Refusal); 7] = [
        (0, &[1, 2, 1], 3, Refusal::BadCount),
        (3, &[1, 2, 1], 3, Refusal::WrongLength),
        (3, &[1, 2], 4, Refusal::WrongLength),
        (3, &[1, 2, 1, 0], 4, Refusal::WrongLength),
        (2, &[1, 2, 1], 4, Refusal::BadVertex),
        (3, &[2, 2, 1], 4, Refusal::Loop),
        (3, &[1, 2, 7], 4, Refusal::BadRows),
    ];
    for (vertices, added, length, refusal) in cases {
        let (answer, starts, neighbours) = index(vertices, added, length);
        assert_eq!((answer, (starts, neighbours)), (Err(refusal), untouched));
    }
    assert_eq!(index(3, &[1, 2, 6], 4), (Ok(()), [0, 1, 3, 4], [1, 0, 2, 1]));
    assert_eq!(tables::index(&[], &[], &mut [], &mut []), Err(Refusal::WrongLength));
}

#[test]
fn lent_indexes() {
    let neighbours = [5, 6, 7];
    assert_eq!(tables::query(&[0, 1, 3], &neighbours, 1), Ok(&[6, 7][..]));
    assert_eq!(tables::query(&[0, 0], &[], 0), Ok(&[][..]));
    assert_eq!(tables::query(&[], &neighbours, 0), Err(Refusal::WrongLength));
    assert_eq!(tables::query(&[0], &neighbours, 0), Err(Refusal::BadCount));
    for starts in [[1, 1, 3], [0, 4, 3], [0, 1, 2], [0, 1, 4]] {
        assert_eq!(tables::query(&starts, &neighbours, 2), Err(Refusal::Damaged));
    }
    assert_eq!(tables::query(&[0, 1, 3], &neighbours, 2), Err(Refusal::BadVertex));
}
