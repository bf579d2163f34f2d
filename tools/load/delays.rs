//! How long lines took, counted in steps of a microsecond and, from 128 on, of less than a sixty-fourth.

const STEPS: u32 = 64;
const PLACES: usize = 64 * 60;

pub struct Delays {
    counts: Vec<u64>,
    most: u64,
}

fn place_of(micros: u64) -> usize {
    if micros < 2 * u64::from(STEPS) {
        return micros as usize;
    }
    let shift = micros.ilog2() - STEPS.ilog2();
    (shift * STEPS) as usize + (micros >> shift) as usize
}

/// The least that is counted in a place.
fn least_of(place: usize) -> u64 {
    let (place, steps) = (place as u64, u64::from(STEPS));
    if place < 2 * steps {
        return place;
    }
    let shift = place / steps - 1;
    (place - shift * steps) << shift
}

impl Delays {
    pub fn new() -> Delays {
        Delays {
            counts: vec![0; PLACES],
            most: 0,
        }
    }

    pub fn note(&mut self, micros: u64) {
        self.counts[place_of(micros)] += 1;
        self.most = self.most.max(micros);
    }

    pub fn add(&mut self, other: &Delays) {
        for (count, more) in self.counts.iter_mut().zip(&other.counts) {
            *count += more;
        }
        self.most = self.most.max(other.most);
    }

    /// In milliseconds, what so many of a thousand lines took at most.
    pub fn within(&self, thousandths: u64) -> f64 {
        let total: u64 = self.counts.iter().sum();
        let mut left = (total * thousandths).div_ceil(1000);
        for (place, count) in self.counts.iter().enumerate() {
            if left <= *count {
                return least_of(place) as f64 / 1000.0;
            }
            left -= count;
        }
        self.most()
    }

    /// In milliseconds.
    pub fn most(&self) -> f64 {
        self.most as f64 / 1000.0
    }
}
