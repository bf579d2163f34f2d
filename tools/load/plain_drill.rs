//! The drill of docs/PROTOCOL.md by a plain server in Rust, which prints the same line: plain_drill SEED LINES LINKS.
//!
//! It cuts lines, reads and routes packets, tells copies, remembers places, gates and who was heard, matches filters, and makes the
//! bytes that each link is sent. What no line of a drill asks for is left out: other bodies, other terms, faults, ends, journals.

use std::collections::{HashMap, VecDeque};
use std::env;
use std::sync::Arc;

const SERVER: &str = "DRILL";
const WINDOW: u64 = 30;
const HEARD: u64 = 10_800;
const SEEN: u64 = 172_800;
const MOST_WAITING: usize = 1000;
const MOST_OFFERED: usize = 65_536;

const POSITION: u16 = 1;
const MESSAGE: u16 = 8;
const STATUS: u16 = 32;
const TELEMETRY: u16 = 64;

#[derive(Clone, Copy, PartialEq, Eq, Hash)]
struct Call {
    bytes: [u8; 9],
    len: u8,
}

impl Call {
    fn read(text: &[u8]) -> Option<Call> {
        let good = |byte: &u8| byte.is_ascii_alphanumeric() || *byte == b'-';
        if text.is_empty() || !text.iter().all(good) {
            return None;
        }
        let mut bytes = [0; 9];
        bytes.get_mut(..text.len())?.copy_from_slice(text);
        Some(Call { bytes, len: text.len() as u8 })
    }

    fn text(&self) -> &[u8] {
        &self.bytes[..usize::from(self.len)]
    }
}

#[derive(Clone, Copy)]
struct Via {
    call: Call,
    star: bool,
}

struct Parts<'a> {
    source: Call,
    dest: Call,
    vias: Vec<Via>,
    body: &'a [u8],
}

fn cut_at(byte: u8, text: &[u8]) -> Option<(&[u8], &[u8])> {
    let place = text.iter().position(|other| *other == byte)?;
    Some((&text[..place], &text[place + 1..]))
}

fn via_of(text: &[u8]) -> Option<Via> {
    let star = text.ends_with(b"*");
    let call = Call::read(&text[..text.len() - usize::from(star)])?;
    Some(Via { call, star })
}

fn is_construct(via: &Via) -> bool {
    matches!(via.call.text(), [b'q', b'A', letter] if letter.is_ascii_alphabetic())
}

fn read(line: &[u8]) -> Option<Parts<'_>> {
    let (head, body) = cut_at(b':', line)?;
    let (source, path) = cut_at(b'>', head)?;
    let mut path = path.split(|byte| *byte == b',');
    let (source, dest) = (Call::read(source)?, Call::read(path.next()?)?);
    let mut vias = Vec::with_capacity(8);
    for text in path {
        vias.push(via_of(text)?);
    }
    let constructs = vias.iter().filter(|via| is_construct(via)).count();
    (line.len() <= 510 && vias.len() <= 32 && constructs < 2 && !body.is_empty()).then_some(Parts { source, dest, vias, body })
}

/// The path of a verified client's packet. None of a packet with a construct is taken: a drill has none.
fn route(vias: &mut Vec<Via>, login: &Call, server: &Call) -> Option<()> {
    let plain = |text: &[u8]| via_of(text);
    if vias.iter().any(is_construct) {
        return None;
    }
    let unheard = |via: &Via| matches!(via.call.text(), b"NOGATE" | b"RFONLY");
    if vias.iter().any(unheard) {
        return None;
    }
    if let [.., gate, last] = vias.as_slice() {
        if last.call.text() == b"I" {
            let gate = *gate;
            let letters: &[u8] = if gate.call == *login { b"qAR" } else { b"qAr" };
            vias.truncate(vias.len() - 2);
            vias.extend([plain(letters)?, gate]);
            return Some(());
        }
    }
    vias.extend([plain(b"TCPIP*")?, plain(b"qAC")?, Via { call: *server, star: false }]);
    Some(())
}

#[derive(Clone, Copy)]
struct Place {
    lat: i32,
    lon: i32,
}

struct Body {
    class: u16,
    place: Option<Place>,
    to: Option<Call>,
}

fn number(text: &[u8]) -> Option<i32> {
    text.iter().try_fold(0, |sum, byte| byte.is_ascii_digit().then(|| sum * 10 + i32::from(byte - b'0')))
}

fn angle(whole: &[u8], minutes: &[u8], side: u8, sides: [u8; 2]) -> Option<i32> {
    let (minutes, hundredths) = cut_at(b'.', minutes)?;
    let angle = number(whole)? * 1_000_000 + (number(minutes)? * 100 + number(hundredths)?) * 500 / 3;
    if side == sides[0] {
        Some(angle)
    } else {
        (side == sides[1]).then_some(-angle)
    }
}

fn place(text: &[u8]) -> Option<Place> {
    let text: &[u8; 19] = text.first_chunk()?;
    let lat = angle(&text[..2], &text[2..7], text[7], *b"NS")?;
    let lon = angle(&text[9..12], &text[12..17], text[17], *b"EW")?;
    (lat.abs() <= 90_000_000 && lon.abs() <= 180_000_000).then_some(Place { lat, lon })
}

fn classify(body: &[u8]) -> Body {
    let bare = |class| Body { class, place: None, to: None };
    match body {
        [b'!' | b'=', rest @ ..] => Body { class: POSITION, place: place(rest), to: None },
        [b'>', ..] => bare(STATUS),
        [b'T', b'#', ..] => bare(TELEMETRY),
        [b':', rest @ ..] if rest.get(9) == Some(&b':') => Body { class: MESSAGE, place: None, to: Call::read(rest[..9].trim_ascii_end()) },
        _ => bare(0),
    }
}

/// A packet that was accepted, and its line with CR LF.
struct Packet {
    from: usize,
    source: Call,
    body: Body,
    line: Arc<[u8]>,
}

fn written(parts: &Parts) -> Arc<[u8]> {
    let mut line = Vec::with_capacity(128);
    line.extend_from_slice(parts.source.text());
    line.push(b'>');
    line.extend_from_slice(parts.dest.text());
    for via in &parts.vias {
        line.push(b',');
        line.extend_from_slice(via.call.text());
        line.extend_from_slice(if via.star { b"*" } else { b"" });
    }
    line.push(b':');
    line.extend_from_slice(parts.body);
    line.extend_from_slice(b"\r\n");
    line.into()
}

enum What {
    Class(u16),
    Prefix(Vec<Vec<u8>>),
    Buddy(Vec<Vec<u8>>),
    Range(Place, u32),
}

struct Term {
    exclude: bool,
    what: What,
}

/// A million times the sine of each whole number of degrees.
struct Sines([u64; 91]);

impl Sines {
    fn half_sine(&self, x: u32) -> u64 {
        let k = (x / 2_000_000) as usize;
        let next = self.0.get(k + 1).unwrap_or(&self.0[k]);
        self.0[k] * 2_000_000 + (next - self.0[k]) * u64::from(x % 2_000_000)
    }

    fn is_within(&self, a: &Place, b: &Place, km: u32) -> bool {
        let arc = (u64::from(km) * 1_000_000_000 / 111_195).min(180_000_000) as u32;
        let lat_gap = a.lat.abs_diff(b.lat);
        if lat_gap > arc {
            return false;
        }
        let square = |n: u64| u128::from(n) * u128::from(n);
        let cosine = |lat: i32| self.half_sine(180_000_000 - 2 * lat.unsigned_abs()) / 2_000_000;
        let gap = a.lon.abs_diff(b.lon);
        let across = square(self.half_sine(gap.min(360_000_000 - gap)));
        let haversine = square(self.half_sine(lat_gap)) * 1_000_000_000_000 + u128::from(cosine(a.lat) * cosine(b.lat)) * across;
        haversine <= square(self.half_sine(arc)) * 1_000_000_000_000
    }
}

impl Term {
    fn fits(&self, packet: &Packet, sines: &Sines) -> bool {
        match &self.what {
            What::Class(mask) => packet.body.class & mask != 0,
            What::Prefix(names) => names.iter().any(|name| packet.source.text().starts_with(name)),
            What::Buddy(names) => names.iter().any(|name| match name.strip_suffix(b"*") {
                Some(beginning) => packet.source.text().starts_with(beginning),
                None => packet.source.text() == name,
            }),
            What::Range(centre, km) => packet.body.place.as_ref().is_some_and(|place| sines.is_within(centre, place, *km)),
        }
    }
}

fn term_of(word: &str) -> Option<Term> {
    let (exclude, word) = word.strip_prefix('-').map_or((false, word), |word| (true, word));
    let (letter, rest) = word.split_once('/')?;
    let names = || rest.split('/').map(|name| name.as_bytes().to_vec()).collect();
    let what = match letter {
        "t" => What::Class(rest.bytes().filter_map(|byte| b"poimqstunw".iter().position(|other| *other == byte)).map(|bit| [1, 2, 4, 8, 16, 32, 64, 128, 256, 512][bit]).sum()),
        "p" => What::Prefix(names()),
        "b" => What::Buddy(names()),
        "r" => {
            let numbers: Vec<i32> = rest.split('/').filter_map(|text| text.parse().ok()).collect();
            What::Range(Place { lat: numbers.first()? * 1_000_000, lon: numbers.get(1)? * 1_000_000 }, *numbers.get(2)? as u32)
        }
        _ => return None,
    };
    Some(Term { exclude, what })
}

#[derive(Default)]
struct Link {
    line: Vec<u8>,
    login: Option<Call>,
    has_full_feed: bool,
    terms: Vec<Term>,
    waiting: VecDeque<Arc<[u8]>>,
    is_over: bool,
}

impl Link {
    fn passes(&self, packet: &Packet, sines: &Sines) -> bool {
        let fits = |exclude| self.terms.iter().any(|term| term.exclude == exclude && term.fits(packet, sines));
        fits(false) && !fits(true)
    }
}

#[derive(Default)]
struct Totals {
    accepted: u64,
    duplicate: u64,
    refused: u64,
    queued: u64,
    taken: usize,
}

struct Server {
    call: Call,
    moment: u64,
    links: Vec<Link>,
    copies: HashMap<Vec<u8>, u64>,
    order: VecDeque<(u64, Vec<u8>)>,
    places: HashMap<Call, (Place, u64)>,
    gates: HashMap<Call, u64>,
    heard: HashMap<Call, Vec<(usize, u64)>>,
    round: Vec<Packet>,
    offer: Vec<u8>,
    sines: Sines,
    totals: Totals,
}

impl Server {
    fn new() -> Server {
        Server {
            call: Call::read(SERVER.as_bytes()).unwrap(),
            moment: 0,
            links: Vec::new(),
            copies: HashMap::new(),
            order: VecDeque::new(),
            places: HashMap::new(),
            gates: HashMap::new(),
            heard: HashMap::new(),
            round: Vec::new(),
            offer: Vec::with_capacity(MOST_OFFERED),
            sines: Sines(std::array::from_fn(|k| ((k as f64).to_radians().sin() * 1e6).round() as u64)),
            totals: Totals::default(),
        }
    }

    fn open(&mut self, has_full_feed: bool) {
        let mut link = Link { has_full_feed, ..Link::default() };
        link.waiting.push_back(b"# aprsc 1.0\r\n".as_slice().into());
        self.links.push(link);
    }

    fn feed(&mut self, number: usize, bytes: &[u8]) {
        for piece in bytes.split_inclusive(|byte| *byte == b'\n') {
            self.links[number].line.extend_from_slice(piece);
            if piece.ends_with(b"\n") {
                let mut line = std::mem::take(&mut self.links[number].line);
                self.meet(number, line.trim_ascii_end());
                line.clear();
                self.links[number].line = line;
            }
        }
    }

    fn meet(&mut self, number: usize, line: &[u8]) {
        match self.links[number].login {
            None => self.log_in(number, &String::from_utf8_lossy(line)),
            Some(login) => match self.take(number, &login, line) {
                Some(true) => self.totals.accepted += 1,
                Some(false) => self.totals.duplicate += 1,
                None => self.totals.refused += 1,
            },
        }
    }

    fn log_in(&mut self, number: usize, line: &str) {
        let words: Vec<&str> = line.split(' ').collect();
        let (link, filter) = (&mut self.links[number], line.split_once(" filter "));
        link.login = words.get(1).and_then(|call| Call::read(call.as_bytes()));
        let reply = format!("# logresp {} verified, server {SERVER}\r\n", words[1]);
        link.waiting.push_back(reply.into_bytes().into());
        if let Some((_, filter)) = filter {
            link.terms = filter.split(' ').filter_map(term_of).collect();
            link.waiting.push_back(format!("# filter {filter} active\r\n").into_bytes().into());
        }
    }

    /// Whether a line is a packet that is new; None where it is none.
    fn take(&mut self, number: usize, login: &Call, line: &[u8]) -> Option<bool> {
        let mut parts = read(line)?;
        route(&mut parts.vias, login, &self.call)?;
        let base = parts.dest.text().split(|byte| *byte == b'-').next()?;
        let key = [parts.source.text(), b">", base, b":", parts.body.trim_ascii_end()].concat();
        if self.copies.contains_key(&key) {
            return Some(false);
        }
        self.copies.insert(key.clone(), self.moment);
        self.order.push_back((self.moment, key));
        let body = classify(parts.body);
        self.note(number, &parts, &body);
        self.round.push(Packet { from: number, source: parts.source, body, line: written(&parts) });
        Some(true)
    }

    /// Where its source is, by which gate it came, and who heard it.
    fn note(&mut self, number: usize, parts: &Parts, body: &Body) {
        if let Some(place) = body.place {
            self.places.insert(parts.source, (place, self.moment));
        }
        if let [.., construct, gate] = parts.vias.as_slice() {
            if construct.call.text() == b"qAR" {
                self.gates.insert(gate.call, self.moment);
            }
        }
        let hearers = self.heard.entry(parts.source).or_default();
        match hearers.iter_mut().find(|hearer| hearer.0 == number) {
            Some(hearer) => hearer.1 = self.moment,
            None => hearers.push((number, self.moment)),
        }
    }

    /// Ends a round: links get its packets, and what waits for them goes out.
    fn tick(&mut self, moment: u64) {
        let is_due = moment / 20 > self.moment / 20;
        self.share_out();
        self.moment = moment;
        if is_due {
            let line: Arc<[u8]> = format!("# aprsc 1.0 {} {SERVER}\r\n", date_of(moment)).into_bytes().into();
            self.links.iter_mut().for_each(|link| link.waiting.push_back(line.clone()));
        }
        self.send_all();
        while self.order.front().is_some_and(|(then, _)| moment - then >= WINDOW) {
            let (_, key) = self.order.pop_front().unwrap();
            self.copies.remove(&key);
        }
        if moment % 60 == 0 {
            self.places.retain(|_, (_, then)| moment - *then < SEEN);
            self.gates.retain(|_, then| moment - *then < SEEN);
            self.heard.values_mut().for_each(|hearers| hearers.retain(|(_, then)| moment - then < HEARD));
        }
    }

    fn share_out(&mut self) {
        for packet in self.round.drain(..) {
            let hearers = packet.body.to.and_then(|to| self.heard.get(&to)).map_or([].as_slice(), Vec::as_slice);
            for (number, link) in self.links.iter_mut().enumerate() {
                let by_rule = || packet.body.to.is_some() && (packet.body.to == link.login || hearers.iter().any(|hearer| hearer.0 == number));
                if number != packet.from && !link.is_over && (link.has_full_feed || link.passes(&packet, &self.sines) || by_rule()) {
                    link.waiting.push_back(packet.line.clone());
                    self.totals.queued += 1;
                    link.is_over = link.waiting.len() > MOST_WAITING;
                }
            }
        }
    }

    fn send_all(&mut self) {
        for link in &mut self.links {
            while !link.waiting.is_empty() {
                self.offer.clear();
                while let Some(line) = link.waiting.pop_front_if(|line| self.offer.len() + line.len() <= MOST_OFFERED) {
                    self.offer.extend_from_slice(&line);
                }
                self.totals.taken += std::hint::black_box(self.offer.as_slice()).len();
            }
        }
    }
}

fn date_of(moment: u64) -> String {
    let (days, second) = ((moment / 86_400) as i64 + 719_468, moment % 86_400);
    let era = days % 146_097;
    let years = (era - era / 1460 + era / 36_524 - era / 146_096) / 365;
    let day = era - (365 * years + years / 4 - years / 100);
    let month = (5 * day + 2) / 153;
    let year = years + days / 146_097 * 400 + i64::from(month > 9);
    let name = ["Mar", "Apr", "May", "Jun", "Jul", "Aug", "Sep", "Oct", "Nov", "Dec", "Jan", "Feb"][month as usize];
    format!("{:02} {name} {year} {:02}:{:02}:{:02} GMT", day - (153 * month + 2) / 5 + 1, second / 3600, second / 60 % 60, second % 60)
}

/// A number in so many digits at least.
fn push_number(text: &mut Vec<u8>, number: u64, width: usize) {
    if number > 9 || width > 1 {
        push_number(text, number / 10, width.saturating_sub(1));
    }
    text.push(b'0' + (number % 10) as u8);
}

fn push_line(text: &mut Vec<u8>, x: u64) {
    let high = x / 65_536;
    text.push(b'S');
    push_number(text, high % 50, 1);
    text.extend_from_slice(b">APRS,D1,I:");
    match x / 256 % 4 {
        0 => {
            text.push(b'!');
            push_number(text, high % 60, 2);
            text.extend_from_slice(b"00.00N/");
            push_number(text, x / 1024 % 120, 3);
            text.extend_from_slice(b"00.00E-");
        }
        1 => {
            text.extend_from_slice(b">s");
            push_number(text, high % 8, 1);
        }
        2 => {
            text.extend_from_slice(b":S");
            push_number(text, x / 4096 % 50, 1);
            let blanks = if x / 4096 % 50 > 9 { 6 } else { 7 };
            text.extend_from_slice(&b"       :m"[7 - blanks..]);
            push_number(text, high % 8, 1);
        }
        _ => text.extend_from_slice(b"T#001"),
    }
    text.extend_from_slice(b"\r\n");
}

fn main() {
    let words: Vec<u64> = env::args().skip(1).filter_map(|word| word.parse().ok()).collect();
    let [seed, lines, links] = *words.as_slice() else {
        return eprintln!("plain_drill SEED LINES LINKS");
    };
    let mut server = Server::new();
    server.tick(1_000_000);
    (1..=links).for_each(|number| server.open(number == 1));
    for number in 1..=links {
        let filter = ["t/m", "p/S1/S2", "r/50/30/1500", "t/poims -b/S3*"][number as usize % 4];
        let filter = if number == 1 { String::new() } else { format!(" filter {filter}") };
        server.feed(number as usize - 1, format!("user D{number} pass 0{filter}\r\n").as_bytes());
    }
    let (mut x, mut text) = (seed, Vec::new());
    for sent in 1..=lines {
        x = (x * 1_103_515_245 + 12_345) % 2_147_483_648;
        text.clear();
        push_line(&mut text, x);
        server.feed(0, &text);
        if sent % 100 == 0 || sent == lines {
            server.tick(1_000_000 + sent.div_ceil(100));
        }
    }
    let Totals { accepted, duplicate, refused, queued, taken } = server.totals;
    println!("drill seed {seed} lines {lines} links {links} accepted {accepted} duplicate {duplicate} refused {refused} queued {queued} bytes {taken}");
}
