// A plain reader of the same grammar, into parts of the same size, and of the class table: what reading packet lines costs without
// a proof. With a word it reads the classes too.
use std::hint::black_box;

// As in reading_costs.rattle.
const TEXTS: [&[u8]; 4] = [
    b"N0CALL-9>APRS,WIDE1-1,WIDE2-1:!4903.50N/07201.75W-Test 001234 a comment of some bytes",
    b"N0GATE-5>APRS,WIDE1-1,WIDE2-1:>A status of a station on a hill, with about that much.",
    b"N0WALK-7>APRS,WIDE1-1,WIDE2-1::N0CALL-9 :A message to another station, as it goes {12",
    b"N0BOAT-8>APRS,WIDE1-1,qAR,GATE:=3351.2 S/15112.9 EYSailing 001234 with a short remark",
];

const ROUND: usize = 400;

const ROUNDS: usize = 2_500;

#[derive(Clone, Copy)]
struct Text<const N: usize> {
    bytes: [u8; N],
    len: usize,
}

#[derive(Clone, Copy)]
struct Via {
    call: Text<9>,
    star: bool,
}

struct Parts {
    source: Text<9>,
    dest: Text<9>,
    vias: [Via; 32],
    count: usize,
    body: Text<510>,
}

#[derive(Clone, Copy)]
struct Place {
    lat: i32,
    lon: i32,
    table: u8,
    code: u8,
}

struct Body {
    class: u16,
    place: Option<Place>,
    to: Option<Text<9>>,
}

fn copied<const N: usize>(text: &[u8]) -> Option<Text<N>> {
    let mut bytes = [0; N];
    bytes.get_mut(..text.len())?.copy_from_slice(text);
    Some(Text { bytes, len: text.len() })
}

fn call(text: &[u8]) -> Option<Text<9>> {
    let base = text.iter().position(|b| *b == b'-').unwrap_or(text.len());
    let good = |part: &[u8]| part.iter().all(u8::is_ascii_alphanumeric);
    if base == 0 || !good(&text[..base]) {
        return None;
    }
    if base < text.len() {
        let ssid = &text[base + 1..];
        if ssid.is_empty() || ssid.len() > 2 || !good(ssid) {
            return None;
        }
    }
    copied(text)
}

fn is_construct(call: &Text<9>) -> bool {
    matches!(&call.bytes[..call.len], [b'q', b'A', letter] if letter.is_ascii_alphabetic())
}

fn read(line: &[u8]) -> Option<Parts> {
    let colon = line.iter().position(|b| *b == b':')?;
    let (head, body) = (&line[..colon], &line[colon + 1..]);
    let arrow = head.iter().position(|b| *b == b'>')?;
    let mut pieces = head[arrow + 1..].split(|b| *b == b',');
    let blank = Via { call: Text { bytes: [0; 9], len: 0 }, star: false };
    let mut parts = Parts {
        source: call(&head[..arrow])?,
        dest: call(pieces.next()?)?,
        vias: [blank; 32],
        count: 0,
        body: copied(body)?,
    };
    let mut constructs = 0;
    for piece in pieces {
        let star = piece.last() == Some(&b'*');
        let call = call(&piece[..piece.len() - usize::from(star)])?;
        constructs += usize::from(is_construct(&call));
        if parts.count == 32 || constructs > 1 || star && constructs > 0 {
            return None;
        }
        parts.vias[parts.count] = Via { call, star };
        parts.count += 1;
    }
    if body.is_empty() { None } else { Some(parts) }
}

fn degrees(text: &[u8]) -> Option<u32> {
    text.iter().try_fold(0, |sum, b| b.is_ascii_digit().then(|| sum * 10 + u32::from(b - b'0')))
}

// The hundredths of a minute of `MM.hh`, whose last digits may be blank.
fn hundredths(text: &[u8]) -> Option<u32> {
    let [tens, ones, b'.', tenths, last] = *text else {
        return None;
    };
    let digits = [tens, ones, tenths, last];
    let count = digits.iter().take_while(|b| b.is_ascii_digit()).count();
    let sum = digits[..count].iter().fold(0, |sum, b| sum * 10 + u32::from(b - b'0')) * 10u32.pow(4 - count as u32);
    (sum < 6_000 && digits[count..].iter().all(|b| *b == b' ')).then_some(sum)
}

fn angle(whole: &[u8], minutes: &[u8], letter: u8, sides: [u8; 2]) -> Option<i32> {
    let angle = (degrees(whole)? * 1_000_000 + hundredths(minutes)? * 500 / 3) as i32;
    if letter == sides[0] {
        Some(angle)
    } else {
        (letter == sides[1]).then_some(-angle)
    }
}

fn place(text: &[u8]) -> Option<Place> {
    let text: &[u8; 19] = text.first_chunk()?;
    let lat = angle(&text[..2], &text[2..7], text[7], *b"NS")?;
    let lon = angle(&text[9..12], &text[12..17], text[17], *b"EW")?;
    let (table, code) = (text[8], text[18]);
    let good = matches!(table, b'/' | b'\\' | b'0'..=b'9' | b'A'..=b'Z') && code.is_ascii_graphic();
    (good && lat.abs() <= 90_000_000 && lon.abs() <= 180_000_000).then_some(Place { lat, lon, table, code })
}

fn bare(class: u16) -> Body {
    Body { class, place: None, to: None }
}

fn positioned(place: Option<Place>) -> Body {
    let weather = place.is_some_and(|place| place.code == b'_');
    Body { class: 1 | u16::from(weather) << 9, place, to: None }
}

fn message(body: &[u8]) -> Option<Body> {
    let (to, text) = (body.get(1..10)?, body.get(10..)?.strip_prefix(b":")?);
    let telemetry = [b"PARM.", b"UNIT.", b"EQNS.", b"BITS."].iter().any(|word| text.starts_with(*word));
    let class = if telemetry { 64 } else { 8 } | u16::from(to.starts_with(b"NWS")) << 8;
    let len = to.iter().rposition(|b| *b != b' ').map_or(0, |last| last + 1);
    Some(Body { class, place: None, to: copied(&to[..len]) })
}

// The class table, without the rows of objects, items, Mic-E and compressed positions.
fn classify(body: &[u8]) -> Body {
    match body[0] {
        b'!' | b'=' => positioned(place(&body[1..])),
        b'/' | b'@' => positioned(body.get(8..).and_then(place)),
        b':' => message(body).unwrap_or(bare(0)),
        b'>' => bare(32),
        b'T' => bare(if body.starts_with(b"T#") { 64 } else { 0 }),
        b'_' => bare(512),
        b'{' => bare(128),
        b'?' => bare(16),
        _ => bare(0),
    }
}

fn sum_of_parts(parts: &Parts) -> u64 {
    (parts.count + parts.source.len + parts.dest.len + parts.body.len) as u64
        + (u64::from(parts.vias[0].star) + parts.vias[0].call.len as u64 + u64::from(parts.body.bytes[0]))
}

fn sum_of_body(body: &Body) -> u64 {
    let place = body.place.map_or(0, |place| {
        u64::from(place.lat.unsigned_abs() + place.lon.unsigned_abs()) + u64::from(place.table) + u64::from(place.code)
    });
    u64::from(body.class) + place + body.to.map_or(0, |to| to.len as u64)
}

fn main() {
    let with_class = std::env::args().len() > 1;
    let lines: Vec<Text<510>> = TEXTS.iter().cycle().take(ROUND).map(|text| copied(text).unwrap()).collect();
    let mut total = 0u64;
    for _ in 0..ROUNDS {
        for line in &lines {
            let Some(parts) = black_box(read(black_box(&line.bytes[..line.len]))) else {
                continue;
            };
            total += sum_of_parts(&parts);
            if with_class {
                total += sum_of_body(&black_box(classify(&parts.body.bytes[..parts.body.len])));
            }
        }
    }
    println!("{total}");
}
