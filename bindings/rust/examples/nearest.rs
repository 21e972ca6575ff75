//! The nearest integer vector, the list of all within a radius and the verdict on it, over a table of two weights.

use snowgimmer::{Refusal, Table, ratio};

fn main() -> Result<(), Refusal> {
    // mu by rows: only the entry below the diagonal is read
    let table = Table::from_rows(&[1.0, 1.0], &[[0.0, 0.0], [0.5, 0.0]]);
    let target = [0.25, 0.5];

    // the radius and the distances are squares
    let found = table.nearest(&target, 2.0, 100)?;
    println!("nearest: {} nodes, distance {}, point {:?}", found.nodes, found.distance, found.point);

    let (mut distances, mut points) = ([0.0; 256], [0; 512]);
    let list = table.list(&target, &mut distances, &mut points, 2.0, 100)?;
    println!("list: {} nodes, {} points", list.nodes, list.distances.len());
    for (distance, point) in list.iter() {
        println!("  distance {distance}, point {point:?}");
    }

    // whether the second distance is at least 3 times the first, or twice it
    println!("ratio 3: {}, ratio 2: {}", ratio(list.distances, 2.0, 3, 1)?, ratio(list.distances, 2.0, 2, 1)?);

    // a budget of 4 nodes is too small by one
    if let Err(refusal) = table.nearest(&target, 2.0, 4) {
        println!("{refusal}");
    }
    Ok(())
}
