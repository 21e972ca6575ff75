//! A table's methods against the functions of the same name.

use snowgimmer::{LARGEST_BUDGET, LARGEST_DIMENSION, LARGEST_LIST, LARGEST_SEARCHED, Refusal, Table, change_reference};

const WEIGHTS: [f64; 2] = [1.0, 1.0];
const ROWS: [[f64; 2]; 2] = [[0.0, 0.0], [0.5, 0.0]];
const TARGET: [f64; 2] = [0.25, 0.5];

fn table() -> Table<'static> {
    Table::from_rows(&WEIGHTS, &ROWS)
}

#[test]
fn searches() {
    let found = table().nearest(&TARGET, 2.0, 100).unwrap();
    assert_eq!((&found.point[..], found.nodes, found.distance), (&[0, 1][..], 5, 0.25));
    let found = table().nearest_ml(&TARGET, 100).unwrap();
    assert_eq!((&found.point[..], found.nodes, found.distance), (&[0, 1][..], 3, 0.25));
    let by_table = table().nearest_seeded(&TARGET, &[1, 1], 2.0, 100).unwrap();
    let mut out = [0; 2];
    let found =
        snowgimmer::nearest_seeded(&WEIGHTS, ROWS.as_flattened(), &TARGET, &mut out, &[1, 1], 2.0, 100).unwrap();
    assert_eq!((by_table.nodes, by_table.distance), (found.nodes, found.distance));
    assert_eq!(by_table.point, out);
}

#[test]
fn lists() {
    let (mut distances, mut points) = ([0.0; 8], [7; 16]);
    let list = table().list(&TARGET, &mut distances, &mut points, 2.0, 100).unwrap();
    assert_eq!((list.nodes, list.iter().len(), list.points.len()), (7, 5, 10));
    assert_eq!(list.iter().next(), Some((0.25, &[0, 1][..])));
    assert_eq!(list.iter().last(), Some((1.25, &[1, 1][..])));
    assert_eq!(points[10..], [7; 6]);
}

#[test]
fn points() {
    let found = table().nearest(&TARGET, 2.0, 100).unwrap();
    assert_eq!(format!("{:?}", found.point), "[0, 1]");
    assert_eq!(found.point.len(), 2);
    assert_eq!(found.point, [0, 1]);
    assert!(found.point != [0, 1, 0] && found.point != [0] && found.point != [1, 1]);
    assert_eq!(table().triangular_distance(&TARGET, &found.point), Ok(0.25));
    let mut point = found.point;
    assert_eq!(change_reference(&mut point, 1), Ok(()));
    assert_eq!(point, [-1, -1]);
    assert_eq!(change_reference(&mut point, 2), Err(Refusal::ReferenceIndex));
}

#[test]
fn no_dimension() {
    let none = Table::new(&[], &[]);
    assert_eq!(none.dimension(), 0);
    assert_eq!(none.nearest(&[], 0.0, 0).unwrap().point, []);
    let (mut distances, mut points) = ([1.0; 2], []);
    let list = none.list(&[], &mut distances, &mut points, 0.0, 0).unwrap();
    assert!(list.iter().eq([(0.0, &[][..])]));
}

#[test]
fn the_largest() {
    const N: usize = LARGEST_DIMENSION;
    let largest = Table::from_rows(&[1.0; N], &[[0.0; N]; N]);
    assert_eq!(largest.nearest_ml(&[3.0; N], LARGEST_BUDGET).unwrap().point, [3; N]);
    let larger = Table::from_rows(&[1.0; N + 1], &[[0.0; N + 1]; N + 1]);
    assert_eq!(larger.nearest_ml(&[3.0; N + 1], 100), Err(Refusal::TableSize { weights: 24 }));
    assert_eq!(larger.nearest_plane(&mut [3.0; N + 1]), Err(Refusal::TableSize { weights: 24 }));
    const M: usize = LARGEST_SEARCHED;
    let searched = Table::from_rows(&[1.0; M], &[[0.0; M]; M]);
    assert_eq!(searched.nearest(&[3.0; M], 0.5, LARGEST_BUDGET).unwrap().point, [3; M]);
    assert_eq!(searched.nearest_plane(&mut [3.0; M]), Err(Refusal::TableSize { weights: 64 }));
    let beyond = Table::from_rows(&[1.0; M + 1], &[[0.0; M + 1]; M + 1]);
    assert_eq!(beyond.nearest(&[3.0; M + 1], 0.5, 100), Err(Refusal::TableSize { weights: 65 }));
    let budget = LARGEST_BUDGET + 1;
    assert_eq!(table().nearest_ml(&TARGET, budget), Err(Refusal::BudgetRange { budget }));
    let (mut distances, mut points) = ([0.0; LARGEST_LIST + 1], [0; 2 * (LARGEST_LIST + 1)]);
    let refusal = table().list(&TARGET, &mut distances, &mut points, 2.0, 100).unwrap_err();
    assert_eq!(refusal, Refusal::ListSize { distances: LARGEST_LIST + 1 });
}

#[test]
fn a_target_of_another_length() {
    let refusal = Refusal::LengthMismatch { expected: 2, found: 1 };
    assert_eq!(table().nearest(&[0.25], 2.0, 100), Err(refusal));
    assert_eq!(table().triangular_distance(&TARGET, &[0]), Err(refusal));
}
