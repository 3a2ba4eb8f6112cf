//! The laws of the count, by document 02, P11. Random operators are inverted and multiplied in plain Rust; of
//! each the library answers the count, and the laws have to hold between the counts.

use plain::file::{Kind, LONG_BYTES, MAX_EXPONENT};
use plain::operator::Operator;
use plain::sheet::MAX_SHEET;
use samples::{Random, Walk};

use crate::call::{Answer, Call};
use crate::gates::cs_gates;
use crate::judge::Judge;

/// A law of the count, by what it speaks of.
#[derive(Clone, Copy, Debug, PartialEq, Eq)]
pub enum Law {
    Inverse,
    Negative,
    SameMatrix,
    Zero,
    NotZero,
    CliffordRight,
    CliffordLeft,
    Product,
    Gates,
    FromClifford,
    Difference,
    DistanceZero,
    DistanceNotZero,
    Symmetric,
    Triangle,
}

/// All laws, in the order of their discriminants.
pub const LAWS: [Law; 15] = [
    Law::Inverse,
    Law::Negative,
    Law::SameMatrix,
    Law::Zero,
    Law::NotZero,
    Law::CliffordRight,
    Law::CliffordLeft,
    Law::Product,
    Law::Gates,
    Law::FromClifford,
    Law::Difference,
    Law::DistanceZero,
    Law::DistanceNotZero,
    Law::Symmetric,
    Law::Triangle,
];

impl Law {
    /// The law in words.
    pub fn name(self) -> &'static str {
        match self {
            Law::Inverse => "an inverse has the same count",
            Law::Negative => "the negative has the same count",
            Law::SameMatrix => "a larger exponent leaves the count",
            Law::Zero => "a Clifford has count 0",
            Law::NotZero => "count 0 means a Clifford",
            Law::CliffordRight => "a Clifford on the right leaves the count",
            Law::CliffordLeft => "a Clifford on the left leaves the count",
            Law::Product => "a product has the sum less an even number",
            Law::Gates => "a list has as many C or more by an even number",
            Law::FromClifford => "the count is the distance from a Clifford",
            Law::Difference => "counts differ by at most the distance",
            Law::DistanceZero => "a Clifford on the right is at distance 0",
            Law::DistanceNotZero => "distance 0 means a Clifford on the right",
            Law::Symmetric => "the distance back is the same",
            Law::Triangle => "a detour is longer by an even number",
        }
    }
}

/// How many times each law is looked at for each count.
const TIMES: usize = 20;

/// Looks at every law for operators of every count.
pub fn run(judge: &mut Judge) {
    let random = Random::new(17);
    let mut laws = Laws { judge, random };
    for count in 0..=MAX_EXPONENT {
        for _ in 0..TIMES {
            let operator = samples::operator(&mut laws.random, count);
            laws.of_one(&operator);
            laws.of_cliffords(&operator);
            laws.of_products(&operator);
            laws.of_distances(&operator);
            laws.of_lists(count);
        }
    }
}

struct Laws<'a> {
    judge: &'a mut Judge,
    random: Random,
}

impl Laws<'_> {
    fn of_one(&mut self, operator: &Operator) {
        let count = self.count(operator);
        let inverse = self.count(&operator.inverse());
        self.holds(Law::Inverse, &[operator], inverse == count);
        let negative = self.count(&operator.negative());
        self.holds(Law::Negative, &[operator], negative == count);
        let larger = samples::inflated(&mut self.random, operator, Kind::Long);
        let same = self.count(&larger);
        self.holds(Law::SameMatrix, &[operator, &larger], same == count);
        if !operator.is_clifford() {
            self.holds(Law::NotZero, &[operator], count != 0);
        }
    }

    fn of_cliffords(&mut self, operator: &Operator) {
        let count = self.count(operator);
        let clifford = samples::clifford(&mut self.random);
        let larger = samples::inflated(&mut self.random, &clifford, Kind::Long);
        let zero = self.count(&larger);
        self.holds(Law::Zero, &[&larger], zero == 0);
        let right = self.count(&operator.times(&clifford));
        self.holds(Law::CliffordRight, &[operator, &clifford], right == count);
        let left = self.count(&clifford.times(operator));
        self.holds(Law::CliffordLeft, &[operator, &clifford], left == count);
        let distance = self.distance(&clifford, operator);
        let from = distance == count;
        self.holds(Law::FromClifford, &[&clifford, operator], from);
    }

    fn of_products(&mut self, first: &Operator) {
        let most = MAX_EXPONENT - first.exponent;
        let second = second(&mut self.random, first, most);
        let sum = self.count(first) + self.count(&second);
        let product = self.count(&first.times(&second).reduced());
        let even = product <= sum && (sum - product).is_multiple_of(2);
        self.holds(Law::Product, &[first, &second], even);
        self.judge.tally.add_product(sum - product);
    }

    fn of_distances(&mut self, first: &Operator) {
        let clifford = samples::clifford(&mut self.random);
        let beside = first.times(&clifford);
        let distance = self.distance(first, &beside);
        self.holds(Law::DistanceZero, &[first, &beside], distance == 0);

        let most = MAX_EXPONENT - first.exponent;
        let step = of_at_most(&mut self.random, most);
        let further = second(&mut self.random, &step, most - step.exponent);
        let second = first.times(&step).reduced();
        let third = second.times(&further).reduced();
        self.of_two(first, &second);
        self.of_two(&second, &third);
        let by_second = self.distance(first, &second) + self.distance(&second, &third);
        let straight = self.distance(first, &third);
        let even = straight <= by_second && (by_second - straight).is_multiple_of(2);
        self.holds(Law::Triangle, &[first, &second, &third], even);
    }

    fn of_two(&mut self, first: &Operator, second: &Operator) {
        let distance = self.distance(first, second);
        let back = self.distance(second, first);
        self.holds(Law::Symmetric, &[first, second], back == distance);
        let difference = self.count(first).abs_diff(self.count(second));
        self.holds(Law::Difference, &[first, second], difference <= distance);
        if !between(first, second).is_clifford() {
            self.holds(Law::DistanceNotZero, &[first, second], distance != 0);
        }
    }

    fn of_lists(&mut self, count: u8) {
        let walk = Walk::reaching(&mut self.random, count);
        let count = self.answered(Call::GatesToOperator, &walk.letters, LONG_BYTES);
        let more = cs_gates(&walk.letters).checked_sub(count.into());
        let even = more.is_some_and(|more| more.is_multiple_of(2));
        self.holds(Law::Gates, &[&walk.product], even);
    }

    /// The count of the operator that leads from the first to the second.
    fn distance(&mut self, first: &Operator, second: &Operator) -> u8 {
        self.count(&between(first, second))
    }

    fn count(&mut self, operator: &Operator) -> u8 {
        self.answered(Call::OperatorToSheet, &samples::file(operator), MAX_SHEET)
    }

    /// The count that the library answers.
    fn answered(&mut self, call: Call, input: &[u8], room: usize) -> u8 {
        match self.judge.run_with(call, input, room) {
            (Answer::Count { count, .. }, _) => count as u8,
            (answer, _) => unreachable!("an accepted operator or list, and {answer:?}"),
        }
    }

    /// Ends the program unless the law holds of the operators.
    fn holds(&mut self, law: Law, operators: &[&Operator], holds: bool) {
        self.judge.tally.add_law(law);
        if !holds {
            println!("the law does not hold: {}", law.name());
            operators
                .iter()
                .for_each(|operator| println!("{operator:?}"));
            std::process::exit(1);
        }
    }
}

/// A second factor, for which neither the count nor that of the product exceeds that of the first and `most`:
/// one that is drawn by itself, or one that undoes the first.
fn second(random: &mut Random, first: &Operator, most: u8) -> Operator {
    let operator = of_at_most(random, most);
    if random.chance(2) {
        return operator;
    }
    between(first, &operator)
}

/// An operator of a count of at most `most`.
fn of_at_most(random: &mut Random, most: u8) -> Operator {
    let count = random.below(usize::from(most) + 1);
    samples::operator(random, count as u8)
}

/// The operator by which the first is to be multiplied to give the second.
fn between(first: &Operator, second: &Operator) -> Operator {
    first.inverse().times(second).reduced()
}
