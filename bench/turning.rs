//! Turning a table's bytes by their place in a row, and back, beside a plain copy of them.

use crate::best;
use crate::readers::{our_turn, TURN, TURN_BACK};
use crate::tables::Table;
use std::hint::black_box;

/// Rows and bytes a row, 64 MB in all.
const SHAPES: [(usize, usize); 10] = [
    (64, 1_048_576),
    (1_024, 65_536),
    (4_096, 16_384),
    (8_192, 8_192),
    (65_536, 1_024),
    (409_600, 164),
    (2_097_152, 32),
    (4_194_304, 16),
    (8_388_608, 8),
    (16_777_216, 4),
];

/// How many times as long as a copy turning and turning back take, by shape.
pub fn time_turning() -> Vec<(String, [f64; 2])> {
    println!("\nturning 64 MB, ms, the entry included, and by the time of a copy");
    println!(
        "  {:20} {:>10} {:>10} {:>10} {:>12} {:>12}",
        "rows x bytes a row", "copy", "turn", "turn back", "turn / copy", "back / copy"
    );
    SHAPES.map(time_shape).into()
}

fn time_shape((rows, row_width): (usize, usize)) -> (String, [f64; 2]) {
    let name = format!("{rows} x {row_width}");
    let table = Table::of_bytes(rows, row_width);
    let (header, area, turned) = (&table.header, &table.area, &table.turned());
    let mut to = vec![0; area.len()];
    let copy = best("copy", 0, || {
        black_box(&mut to).copy_from_slice(black_box(area));
        0
    });
    assert!(to == *area, "copy: other bytes");
    let turn = best("turn", 0, || our_turn(TURN, header, area, &mut to));
    assert!(to == *turned, "turn: other bytes");
    let back = best("turn back", 0, || {
        our_turn(TURN_BACK, header, turned, &mut to)
    });
    assert!(to == *area, "turn back: other bytes");
    let [copy_ms, turn_ms, back_ms] = [copy, turn, back].map(|ns| ns / 1e6);
    let (by_copy, back_by_copy) = (turn / copy, back / copy);
    println!("  {name:20} {copy_ms:10.2} {turn_ms:10.2} {back_ms:10.2} {by_copy:12.2} {back_by_copy:12.2}");
    (name, [by_copy, back_by_copy])
}
