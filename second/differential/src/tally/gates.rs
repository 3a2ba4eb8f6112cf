//! How often each sign or power of ω of a gate list, and each number of Z in a stretch, was seen.

use plain::omega::POWERS;
use plain::stretch::{cz_gates, stretches};

use super::numbered;
use crate::call::Call;

const CZ_GATES: usize = 4;
const LEAST: u64 = 1000;

/// What stands beside a gate list: its name in the singular and in the plural, and how many there are of
/// it, from 0 up.
pub struct Beside {
    one: &'static str,
    all: &'static str,
    number: usize,
}

/// The sign of an operator's list.
pub const SIGN: Beside = Beside {
    one: "sign",
    all: "signs",
    number: 2,
};

/// The power of ω of a unitary's list.
pub const POWER: Beside = Beside {
    one: "power of omega",
    all: "powers of omega",
    number: POWERS as usize,
};

/// The tally of the gate lists of a call.
pub struct Gates {
    beside: [u64; POWERS as usize],
    stretches: [u64; CZ_GATES],
}

impl Gates {
    pub fn new() -> Gates {
        Gates {
            beside: [0; POWERS as usize],
            stretches: [0; CZ_GATES],
        }
    }

    /// Counts a list with what stands beside it, and its stretches.
    pub fn add(&mut self, list: &[u8], beside: u8) {
        self.beside[usize::from(beside)] += 1;
        for stretch in stretches(list) {
            self.stretches[cz_gates(stretch)] += 1;
        }
    }

    /// Prints a line for what stands beside the lists, and one for the stretches by their number of Z.
    pub fn print(&self, call: Call, beside: &Beside) {
        let name = call.name();
        let times = &self.beside[..beside.number];
        println!("{} of {name}:{}", beside.all, numbered(times));
        println!("stretches of {name}, by Z:{}", numbered(&self.stretches));
    }

    /// What was seen too seldom.
    pub fn gaps(&self, call: Call, beside: &Beside) -> Vec<String> {
        let times = &self.beside[..beside.number];
        let beside = seldom(beside.one, call, times);
        let stretches = seldom("stretch with as many Z as", call, &self.stretches);
        [beside, stretches].concat()
    }
}

/// The numbers from 0 up that a call met too seldom.
fn seldom(what: &str, call: Call, times: &[u64]) -> Vec<String> {
    let numbers = (0..times.len()).filter(|&number| times[number] < LEAST);
    let gap = |number| format!("{what} {number} of {}", call.name());
    numbers.map(gap).collect()
}
