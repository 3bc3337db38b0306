//! The frame of examples/frame.c, from Rust: it prints the same. `cargo run --example frame`.
use chavrupas::{encoder, Aabb, AabbGrid, Found, Grid, Handle, Kind, Refusal, Reply, Tracked};

/// The trackers of this desk, of eight that there may be.
const HANDS: u32 = 0;
const LAMPS: u32 = 1;

/// The trackers' calls of one frame, with one check of the tables: two moves and a removal.
fn track(desk: &mut Grid, handles: [Tracked; 3]) -> Result<(), Refusal> {
    let kinds = [Kind::SetPosition, Kind::SetPosition, Kind::Remove];
    let mut out = [Reply::default(); 3];
    let calls = desk.batch(&kinds, &handles, &[[2100.0, 500.0], [2112.0, 508.0], [0.0, 0.0]], &mut out)?;
    for reply in out {
        reply.result()?;
    }
    println!("batch of {calls}; the last call removed data {}", out[2].obj);
    Ok(())
}

fn tell(before: &str, f: Found) {
    let (Handle { slot, version }, [x, y]) = (f.handle, f.position);
    println!("{before}slot {slot} version {version} at ({x}, {y}) data {} tracker {}", f.obj, f.tracker);
}

fn circle(desk: &mut Grid, [x, y]: [f32; 2], radius: f32) -> Result<(), Refusal> {
    let found = desk.query_around([x, y], radius)?;
    println!("within {radius} of ({x}, {y}): {}", found.len());
    for f in found {
        tell("  ", f);
    }
    Ok(())
}

/// The one that is nearest to a fingertip, if any is within the radius.
fn nearest(desk: &Grid, [x, y]: [f32; 2], radius: f32) -> Result<(), Refusal> {
    print!("nearest to ({x}, {y}): ");
    match desk.nearest([x, y], radius)? {
        None => println!("none within {radius}"),
        Some(f) => tell("", f),
    }
    Ok(())
}

/// The map for the encoder, of two grids with cells of 16: the blocks that are not 0.
fn map() -> Result<(), Refusal> {
    let (mut points, mut boxes) = (Grid::new(encoder::SIDE, 4)?, AabbGrid::new(encoder::SIDE, 1, 8)?);
    points.insert([100.0, 500.0], 1, HANDS)?;
    points.insert([640.0, 200.0], 2, HANDS)?;
    boxes.insert(Aabb::new([90.0, 490.0], [110.0, 495.0]), 1)?;
    let mut bytes = [0; encoder::BLOCKS];
    encoder::fill_map(&points, &boxes, &[[100.0, 500.0, 30.0]], &mut bytes)?;
    for (k, byte) in bytes.iter().enumerate().filter(|(_, byte)| **byte != 0) {
        println!("block ({}, {}): {byte}", k % encoder::COLUMNS, k / encoder::COLUMNS);
    }
    Ok(())
}

fn main() -> Result<(), Refusal> {
    let mut desk = Grid::new(64, 4)?;
    let (hand, finger) = (desk.insert([100.0, 500.0], 1, HANDS)?, desk.insert([112.0, 508.0], 2, HANDS)?);
    let lamp = desk.insert([2090.0, 520.0], 3, LAMPS)?;

    track(&mut desk, [hand.by(HANDS), finger.by(HANDS), lamp.by(LAMPS)])?;
    circle(&mut desk, [100.0, 500.0], 30.0)?; // what is pending is not seen before maintain
    let m = desk.maintain();
    println!("maintain: {} moved, {} removed", m.moved, m.removed);
    circle(&mut desk, [100.0, 500.0], 30.0)?;
    circle(&mut desk, [2100.0, 500.0], 30.0)?; // 2,000 pixels in a frame, and not lost
    nearest(&desk, [2110.0, 505.0], 30.0)?;
    nearest(&desk, [100.0, 500.0], 30.0)?;

    println!("the lamp's handle: answer {}", desk.get(lamp).map_or_else(Refusal::number, |_| 0));
    println!("the lamps' tracker moves the hand: answer {}", desk.set_position(hand, [0.0; 2], LAMPS).map_or_else(Refusal::number, |_| 0));
    map()
}
