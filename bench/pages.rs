//! The profile page of a row of an E column, beside one that is written line by line by snprintf.

use crate::best_of_ten;
use crate::readers::{our_layout, our_page, snprintf_page, thread_time};
use crate::tables::{Random, Table};
use std::hint::black_box;

const LINES: usize = 38_000;
const ROWS: usize = 4;
/// The bytes of a line, and where in it the weight stands.
const LINE: usize = 27;
const WEIGHT: std::ops::Range<usize> = 16..26;
/// How many pages each writes, in turn, as many of each row.
const REPEATS: usize = 200;

/// A weight as a gauge has it: mostly 40 to 160, one in fifteen of these in eighths; some below 0, a few up to 2^40,
/// and one in 1,024 no number.
fn gauge(random: &mut Random) -> u32 {
    let bits = random.draw();
    let part = (bits >> 32) as f32 / 4_294_967_296.0;
    let weight = match bits % 1024 {
        0..=63 => ((40.0 + 120.0 * part) * 8.0).floor() / 8.0,
        64..=959 => 40.0 + 120.0 * part,
        960..=1007 => -5.0 * part,
        1008..=1022 => (part * 40.0).exp2(),
        _ => f32::NAN,
    };
    weight.to_bits()
}

/// Any bits.
fn any(random: &mut Random) -> u32 {
    (random.draw() >> 32) as u32
}

/// How many times as long snprintf takes, by what the items are and the edition.
pub fn time_pages() -> Vec<(String, f64)> {
    println!("\npages of {LINES} lines, ns a line, each the median of {REPEATS}, in turn");
    println!(
        "  {:30} {:>10} {:>10} {:>12}",
        "", "ours", "snprintf", "/ ours"
    );
    let gauges = Table::of_floats(ROWS, LINES, gauge);
    let random = Table::of_floats(ROWS, LINES, any);
    let items = [("gauge", &gauges), ("random bits", &random)];
    let ratios = items
        .into_iter()
        .flat_map(|(name, table)| [1, 2].map(|edition| time_page(name, table, edition)))
        .collect();
    let sum: u64 = gauges.layout_sum().into();
    let entry = best_of_ten("our layout", sum, || our_layout(&gauges));
    println!(
        "  The entry on this header, with a checksum of its layout, takes {entry:.0} ns, {:.2} ns a line.",
        entry / LINES as f64
    );
    ratios
}

fn time_page(name: &str, table: &Table, edition: u64) -> (String, f64) {
    let name = format!("{name}, edition {edition}");
    let decimals = edition as i32;
    let mut page = vec![0; LINES * LINE];
    let mut printed = vec![0; LINES * LINE + 1];
    for row in 0..ROWS {
        let bytes = our_page(table, row, edition, &mut page);
        assert_eq!(bytes, page.len() as u64, "{name}: another length");
        snprintf_page(table, row, decimals, &mut printed);
        compare(&name, table.row(row), edition, &page, &printed);
    }
    let (mut ours, mut theirs) = (vec![], vec![]);
    for i in 0..REPEATS {
        let start = thread_time();
        black_box(our_page(table, i % ROWS, edition, &mut page));
        let middle = thread_time();
        black_box(snprintf_page(table, i % ROWS, decimals, &mut printed));
        ours.push(middle - start);
        theirs.push(thread_time() - middle);
    }
    let [ours, theirs] = [ours, theirs].map(|times| median(times) / LINES as f64);
    let ratio = theirs / ours;
    println!("  {name:30} {ours:10.1} {theirs:10.1} {ratio:12.2}");
    (name, ratio)
}

fn median(mut times: Vec<u64>) -> f64 {
    times.sort();
    times[times.len() / 2] as f64
}

/// Each line of our page must be that of snprintf, but for a weight of more than ten places or of no number, which
/// must be stars, for one that is rounded to 0, which must have no minus, and, in edition 1, for halves, which must go
/// away from 0.
fn compare(name: &str, items: &[u8], edition: u64, page: &[u8], printed: &[u8]) {
    let lines = page.chunks_exact(LINE).zip(printed.chunks_exact(LINE));
    for (item, (line, printed)) in items.chunks_exact(4).zip(lines) {
        let bits = u32::from_be_bytes(item.try_into().expect("four bytes"));
        let mut wanted = printed.to_vec();
        wanted[LINE - 1] = b'\n';
        if let Some(weight) = ours_alone(f32::from_bits(bits), edition, printed) {
            wanted[WEIGHT].copy_from_slice(format!("{weight:>10}").as_bytes());
        }
        assert_eq!(
            String::from_utf8_lossy(line),
            String::from_utf8_lossy(&wanted),
            "{name}: the weight {bits:08x}"
        );
    }
}

/// The text of a weight where it may be another one than snprintf's.
fn ours_alone(weight: f32, edition: u64, printed: &[u8]) -> Option<String> {
    let tenths = f64::from(weight) * 10.0;
    if printed[LINE - 1] != b'\n' || !weight.is_finite() {
        return Some("*".repeat(10));
    }
    if edition == 1 && tenths.fract().abs() == 0.5 {
        let sign = if weight < 0.0 { "-" } else { "" };
        let tenths = tenths.abs().round() as u64;
        return Some(format!("{sign}{}.{}", tenths / 10, tenths % 10));
    }
    match &printed[WEIGHT] {
        b"      -0.0" => Some("0.0".into()),
        b"     -0.00" => Some("0.00".into()),
        _ => None,
    }
}
