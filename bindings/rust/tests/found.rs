//! The distance that a search tells: that of its point, bit for bit, and not the radius.

use snowgimmer::{Refusal, Table};

/// A table with a target, a radius and a candidate inside it.
struct Bench<'a> {
    table: Table<'a>,
    target: &'a [f64],
    radius: f64,
    candidate: &'a [i64],
}

const E: Bench = Bench { table: Table::new(&[1.0], &[0.0]), target: &[0.5], radius: 1.0, candidate: &[1] };

/// What all three searches tell is their point's distance, and the first of the list.
fn agree(bench: &Bench) {
    let Bench { table, target, radius, candidate } = *bench;
    let searches = [
        table.nearest(target, radius, 10_000),
        table.nearest_seeded(target, candidate, radius, 10_000),
        table.nearest_ml(target, 10_000),
    ];
    let (mut distances, mut points) = (vec![0.0; 4096], vec![0; 4096 * table.dimension()]);
    let list = table.list(target, &mut distances, &mut points, radius, 10_000).unwrap();
    for found in searches.map(Result::unwrap) {
        assert!(found.distance.is_finite());
        let distance = table.triangular_distance(target, &found.point).unwrap();
        assert_eq!(found.distance.to_bits(), distance.to_bits());
        assert_eq!(found.distance.to_bits(), list.distances[0].to_bits());
    }
}

#[test]
fn the_distance_of_the_point() {
    agree(&E);
    let two = Table::new(&[1.0, 1.0], &[0.0, 0.0, 0.5, 0.0]);
    agree(&Bench { table: two, target: &[0.25, 0.5], radius: 2.0, candidate: &[1, 1] });
    let three = Table::new(&[0.3, 0.7, 1.3], &[0.0, 0.0, 0.0, 0.3, 0.0, 0.0, -0.4, 0.1, 0.0]);
    agree(&Bench { table: three, target: &[0.1, 2.7, -3.3], radius: 5.0, candidate: &[1, 2, -3] });
}

/// Tables of a simple generator, whose operations round.
#[test]
fn drawn_tables() {
    let mut state = 1_u64;
    let mut draw = || {
        state = state.wrapping_mul(6364136223846793005).wrapping_add(1442695040888963407);
        (state >> 11) as f64 / (1_u64 << 53) as f64
    };
    for n in (1..=6).cycle().take(120) {
        let weights: Vec<f64> = (0..n).map(|_| 0.5 + 4.0 * draw()).collect();
        let mu: Vec<f64> = (0..n * n).map(|_| draw() - 0.5).collect();
        let target: Vec<f64> = (0..n).map(|_| 20.0 * draw() - 10.0).collect();
        let table = Table::new(&weights, &mu);
        let plane = table.nearest_plane(&mut target.clone()).unwrap();
        let radius = 1.5 * table.triangular_distance(&target, &plane).unwrap();
        agree(&Bench { table, target: &target, radius, candidate: &plane });
    }
}

/// The terms are 2^-53, 2^-53 and 1: summed from level 2 down they give 1, from level 0 up 1 + 2^-52.
#[test]
fn the_order_of_the_sum() {
    let weights = [2.0 * f64::EPSILON, 2.0 * f64::EPSILON, 4.0];
    let (table, radius) = (Table::new(&weights, &[0.0; 9]), 1.0 + f64::EPSILON);
    let bench = Bench { table, target: &[0.5; 3], radius, candidate: &[1; 3] };
    agree(&bench);
    assert_eq!(bench.table.nearest(bench.target, radius, 100).unwrap().distance, 1.0);
}

#[test]
fn not_the_radius() -> Result<(), Refusal> {
    assert_eq!(E.table.nearest(E.target, 1.0, 2)?.distance, 0.25);
    assert_eq!(E.table.nearest_seeded(E.target, &[2], 2.25, 100)?.distance, 0.25);
    assert_eq!(E.table.nearest_ml(E.target, 100)?.distance, 0.25);
    Ok(())
}

#[test]
fn a_radius_of_zero() -> Result<(), Refusal> {
    for radius in [0.0, -0.0] {
        let found = E.table.nearest(&[1.0], radius, 1)?;
        assert_eq!((&found.point[..], found.nodes, found.distance.to_bits()), (&[1][..], 1, 0));
    }
    Ok(())
}

#[test]
fn no_dimension() -> Result<(), Refusal> {
    let none = Table::new(&[], &[]);
    for radius in [0.0, -0.0, 4.0] {
        assert_eq!(none.nearest(&[], radius, 0)?.distance.to_bits(), 0);
        assert_eq!(none.nearest_seeded(&[], &[], radius, 0)?.distance.to_bits(), 0);
    }
    assert_eq!(none.nearest_ml(&[], 0)?.distance.to_bits(), 0);
    Ok(())
}
