//! An axis by powers of ten: from values to places, and its ticks.

#[derive(Clone, Copy)]
pub struct Axis {
    low: f64,
    high: f64,
    from: f64,
    to: f64,
}

impl Axis {
    /// An axis from one place to another that has room for the values, with a little space at both ends.
    pub fn over(values: impl Iterator<Item = f64>, from: f64, to: f64) -> Axis {
        let (mut low, mut high) = (f64::INFINITY, 0.0f64);
        for value in values.filter(|value| *value > 0.0) {
            (low, high) = (low.min(value), high.max(value));
        }
        Axis { low: low / 1.25, high: high * 1.25, from, to }
    }

    pub fn place(&self, value: f64) -> f64 {
        let share = (value / self.low).ln() / (self.high / self.low).ln();
        self.from + share * (self.to - self.from)
    }

    /// The powers of ten, and twice and five times these where there are few.
    pub fn ticks(&self) -> Vec<f64> {
        let powers = |factors: &[f64]| -> Vec<f64> {
            let all = (-6..10).flat_map(|power| factors.iter().map(move |factor| factor * 10f64.powi(power)));
            all.filter(|tick| (self.low..=self.high).contains(tick)).collect()
        };
        let tens = powers(&[1.0]);
        if tens.len() > 3 { tens } else { powers(&[1.0, 2.0, 5.0]) }
    }
}

/// A tick's number, with commas between thousands.
pub fn label(tick: f64) -> String {
    if tick < 0.99 {
        return format!("{}", (tick * 1e6).round() / 1e6);
    }
    grouped(tick.round() as u64)
}

pub fn grouped(number: u64) -> String {
    let digits = number.to_string();
    let mut text = String::new();
    for (i, digit) in digits.chars().enumerate() {
        if i > 0 && (digits.len() - i).is_multiple_of(3) {
            text.push(',');
        }
        text.push(digit);
    }
    text
}
