// The same as passing_costs.rattle in plain Rust, with the same whole numbers: what testing packets by ranges costs without a proof.
use std::hint::black_box;

// Latitude and longitude in degrees, and kilometres.
const RANGES: [(i32, i32, u32); 9] = [
    (49, 0, 200),
    (50, 12, 250),
    (51, 25, 200),
    (48, 5, 250),
    (49, 30, 300),
    (50, -5, 250),
    (51, -1, 200),
    (48, 25, 250),
    (49, 9, 150),
];

// The places of the eight packets in millionths of a degree, where they have one.
const PLACES: [Option<(i32, i32)>; 8] = [
    Some((49_058_333, -72_029_166)),
    None,
    Some((51_205_000, 6_751_666)),
    None,
    Some((48_205_000, 16_373_333)),
    Some((50_400_000, 18_916_666)),
    None,
    Some((40_400_000, -3_700_000)),
];

#[derive(Clone, Copy)]
struct Place {
    lat: i32,
    lon: i32,
}

enum What {
    Range { place: Place, km: u32 },
    #[allow(dead_code)]
    Class { mask: u16 },
}

struct Term {
    exclude: bool,
    what: What,
}

struct Packet {
    class: u16,
    place: Option<Place>,
}

// A million times the sine of each whole number of degrees.
fn sines() -> [u32; 91] {
    std::array::from_fn(|k| ((k as f64).to_radians().sin() * 1e6).round() as u32)
}

fn half_sine(sines: &[u32; 91], x: u32) -> u64 {
    let k = (x / 2_000_000) as usize;
    if k == 90 {
        return 2_000_000_000_000;
    }
    u64::from(sines[k]) * 2_000_000 + u64::from(sines[k + 1] - sines[k]) * u64::from(x % 2_000_000)
}

fn square(n: u64) -> u128 {
    u128::from(n) * u128::from(n)
}

fn is_within(sines: &[u32; 91], a: &Place, b: &Place, km: u32) -> bool {
    let arc = (u64::from(km) * 1_000_000_000 / 111_195).min(180_000_000) as u32;
    let lat_gap = a.lat.abs_diff(b.lat);
    if lat_gap > arc {
        return false;
    }
    let cosine = |lat: i32| half_sine(sines, 180_000_000 - 2 * lat.unsigned_abs()) / 2_000_000;
    let gap = a.lon.abs_diff(b.lon);
    let across = square(half_sine(sines, gap.min(360_000_000 - gap)));
    let haversine = square(half_sine(sines, lat_gap)) * 1_000_000_000_000 + u128::from(cosine(a.lat) * cosine(b.lat)) * across;
    haversine <= square(half_sine(sines, arc)) * 1_000_000_000_000
}

fn fits(sines: &[u32; 91], packet: &Packet, what: &What) -> bool {
    match what {
        What::Range { place, km } => packet.place.as_ref().is_some_and(|other| is_within(sines, place, other, *km)),
        What::Class { mask } => packet.class & mask != 0,
    }
}

#[inline(never)]
fn passes(sines: &[u32; 91], terms: &[Term], packet: &Packet) -> bool {
    terms.iter().any(|term| !term.exclude && fits(sines, packet, &term.what)) && !terms.iter().any(|term| term.exclude && fits(sines, packet, &term.what))
}

fn main() {
    let times = if std::env::args().len() > 1 { 16_000 } else { 8_000 };
    let sines = black_box(sines());
    let degrees = 1_000_000;
    let range = |(lat, lon, km)| What::Range { place: Place { lat: lat * degrees, lon: lon * degrees }, km };
    let terms: Vec<Term> = RANGES.map(|range_of| Term { exclude: false, what: range(range_of) }).into();
    let packets = PLACES.map(|place| Packet { class: 0, place: place.map(|(lat, lon)| Place { lat, lon }) });
    let terms = black_box(&terms);
    let count = packets.iter().cycle().take(times).filter(|packet| passes(&sines, terms, black_box(packet))).count();
    println!("{count} passed");
}
