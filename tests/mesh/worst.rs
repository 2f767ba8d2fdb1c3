//! How many edges a bucket of the edge table can hold at the most, counted over all edges that there can be, and how many steps a mesh takes at
//! the most to enter its edges. `bucket` is `bucketOf` of crates/edge_table/specs/Words.antt. Usage: worst
const VERTICES: u64 = 65_535;

fn bucket(size: u64, low: u64, high: u64) -> u64 {
    let difference = high - low;
    (4 * low
        + difference % 8
        + difference / 8 * 2_654_435_761 % 4_294_967_296 * size / 4_294_967_296)
        % size
}

/// Over one difference of the ends the buckets rise by four: only the first is computed.
fn fullest(size: u64) -> u64 {
    let mut edges = vec![0u16; size as usize];
    for difference in 1..VERTICES {
        let mut place = bucket(size, 0, difference);
        for _ in 0..VERTICES - difference {
            edges[place as usize] = edges[place as usize].saturating_add(1);
            place += 4 % size;
            if place >= size {
                place -= size;
            }
        }
    }
    edges.into_iter().max().unwrap_or(0).into()
}

fn main() {
    println!("| buckets | edges of the fullest | steps at the most |");
    println!("|---:|---:|---:|");
    for size in [3_000, 30_000, 46_341, 90_000, 196_605, 262_140, 393_210] {
        let most = fullest(size).min(size);
        println!("| {size} | {most} | {} |", size * (most - 1) / 2);
    }
}
