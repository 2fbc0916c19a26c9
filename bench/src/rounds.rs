//! Timing in turns: each round runs a batch of every contender, so that a disturbance of the machine meets all of them, and ratios are taken within a round.
use crate::clock;

/// How many rounds, and how many seconds of processor time a batch takes at least.
#[derive(Clone, Copy)]
pub struct Plan {
    pub rounds: usize,
    pub batch: f64,
}

/// Least, middle and greatest of some values.
#[derive(Clone, Copy, Debug)]
pub struct Spread {
    pub least: f64,
    pub middle: f64,
    pub most: f64,
}

impl Spread {
    pub fn of(mut values: Vec<f64>) -> Spread {
        values.sort_by(f64::total_cmp);
        let last = values.len() - 1;
        let middle = (values[last / 2] + values[last.div_ceil(2)]) / 2.0;
        Spread { least: values[0], middle, most: values[last] }
    }

    pub fn times(self, factor: f64) -> Spread {
        Spread { least: self.least * factor, middle: self.middle * factor, most: self.most * factor }
    }
}

/// What a contender took: seconds a call, and the first contender's time divided by this one's.
#[derive(Clone, Copy, Debug)]
pub struct Taken {
    pub time: Spread,
    pub ratio: Spread,
}

fn seconds_of(calls: u64, call: &mut dyn FnMut()) -> f64 {
    let start = clock::seconds();
    for _ in 0..calls {
        call();
    }
    clock::seconds() - start
}

/// The calls of a batch: the clock is read twice a batch and not at each call, since it costs as much as a short call.
fn calls_of(batch: f64, call: &mut dyn FnMut()) -> u64 {
    let mut calls = 1;
    loop {
        let spent = seconds_of(calls, call);
        if spent >= batch {
            return calls;
        }
        if spent > batch / 10.0 {
            return (calls as f64 * batch / spent).ceil() as u64;
        }
        calls *= 4;
    }
}

/// Times the contenders in turns; the first is the one that the ratios speak of.
pub fn take(plan: Plan, contenders: &mut [Box<dyn FnMut() + '_>]) -> Vec<Taken> {
    let calls: Vec<u64> = contenders.iter_mut().map(|call| calls_of(plan.batch, call)).collect();
    let mut times = vec![Vec::new(); contenders.len()];
    for _ in 0..plan.rounds {
        for (i, call) in contenders.iter_mut().enumerate() {
            times[i].push(seconds_of(calls[i], call) / calls[i] as f64);
        }
    }
    let ratios = |other: &Vec<f64>| times[0].iter().zip(other).map(|(first, other)| first / other).collect();
    times.iter().map(|own| Taken { time: Spread::of(own.clone()), ratio: Spread::of(ratios(own)) }).collect()
}
