//! The numbers a + bω + cω² + dω³ with whole a, b, c and d, where ω is the eighth root of unity
//! (1 + i) / √2: ω⁴ is −1, ω² is i, and ω − ω³ is √2.

/// How many powers of ω there are.
pub const POWERS: u8 = 8;

/// A number by its four coefficients, a first.
#[derive(Clone, Copy, Debug, PartialEq, Eq)]
pub struct Number(pub [i64; 4]);

impl Number {
    pub const ZERO: Number = Number([0, 0, 0, 0]);
    pub const ONE: Number = Number([1, 0, 0, 0]);
    pub const OMEGA: Number = Number([0, 1, 0, 0]);
    pub const I: Number = Number([0, 0, 1, 0]);
    pub const ROOT_TWO: Number = Number([0, 1, 0, -1]);

    /// The Gaussian integer with these parts.
    pub const fn gaussian(re: i64, im: i64) -> Number {
        Number([re, 0, im, 0])
    }

    /// The real and the imaginary part of a Gaussian integer; none if the number is not one.
    pub fn parts(self) -> Option<(i64, i64)> {
        match self.0 {
            [re, 0, im, 0] => Some((re, im)),
            _ => None,
        }
    }

    pub fn plus(self, other: Number) -> Number {
        Number(std::array::from_fn(|at| self.0[at] + other.0[at]))
    }

    pub const fn negative(self) -> Number {
        let [a, b, c, d] = self.0;
        Number([-a, -b, -c, -d])
    }

    pub fn times(self, other: Number) -> Number {
        let [a, b, c, d] = self.0;
        let [e, f, g, h] = other.0;
        Number([
            a * e - b * h - c * g - d * f,
            a * f + b * e - c * h - d * g,
            a * g + b * f + c * e - d * h,
            a * h + b * g + c * f + d * e,
        ])
    }

    /// ω to a power, from 0 up.
    pub fn omega_to(power: u8) -> Number {
        (0..power).fold(Number::ONE, |product, _| product.times(Number::OMEGA))
    }

    /// The complex conjugate; that of ω is −ω³.
    pub fn conjugate(self) -> Number {
        let [a, b, c, d] = self.0;
        Number([a, -d, -c, -b])
    }

    /// The number divided by √2; none if the quotient has no whole coefficients.
    pub fn over_root_two(self) -> Option<Number> {
        let doubled = self.times(Number::ROOT_TWO).0;
        let is_even = doubled.iter().all(|coefficient| coefficient % 2 == 0);
        is_even.then_some(Number(doubled.map(|coefficient| coefficient / 2)))
    }

    /// The whole m and n of a real number m + n√2; none if the number is not real.
    pub fn real(self) -> Option<(i64, i64)> {
        let [a, b, ..] = self.0;
        (self.conjugate() == self).then_some((a, b))
    }
}

#[cfg(test)]
mod tests {
    use super::*;

    /// The real and the imaginary part, nearly.
    fn complex(number: Number) -> (f64, f64) {
        let [a, b, c, d] = number.0.map(|coefficient| coefficient as f64);
        let half = 0.5f64.sqrt();
        (a + half * (b - d), c + half * (b + d))
    }

    fn near(number: Number, (re, im): (f64, f64)) -> bool {
        let (own_re, own_im) = complex(number);
        (own_re - re).abs() < 1e-9 && (own_im - im).abs() < 1e-9
    }

    /// Every number with small coefficients.
    fn small() -> impl Iterator<Item = Number> {
        (0..5i64.pow(4)).map(|code| Number([1, 5, 25, 125].map(|place| code / place % 5 - 2)))
    }

    #[test]
    fn operations_are_those_of_complex_numbers() {
        for (z, w) in small().flat_map(|z| small().step_by(7).map(move |w| (z, w))) {
            let ((a, b), (c, d)) = (complex(z), complex(w));
            assert!(near(z.plus(w), (a + c, b + d)));
            assert!(near(z.times(w), (a * c - b * d, a * d + b * c)));
            assert!(near(z.negative(), (-a, -b)));
            assert!(near(z.conjugate(), (a, -b)));
        }
    }

    #[test]
    fn omega_is_an_eighth_root_of_unity() {
        assert_eq!(Number::omega_to(0), Number::ONE);
        assert_eq!(Number::omega_to(2), Number::I);
        assert_eq!(Number::omega_to(4), Number::ONE.negative());
        assert_eq!(Number::omega_to(POWERS), Number::ONE);
        let mut powers = (1..POWERS).map(Number::omega_to);
        assert!(powers.all(|power| power != Number::ONE));
        let one_and_i = Number::OMEGA.times(Number::ROOT_TWO);
        assert_eq!(one_and_i, Number::gaussian(1, 1));
    }

    #[test]
    fn root_two_divides_what_it_was_multiplied_into() {
        assert_eq!(
            Number::ROOT_TWO.times(Number::ROOT_TWO),
            Number::gaussian(2, 0)
        );
        for number in small() {
            let product = number.times(Number::ROOT_TWO);
            assert_eq!(product.over_root_two(), Some(number));
        }
        let divisible = small().filter_map(Number::over_root_two).count();
        assert_eq!(divisible, (3 * 3 + 2 * 2) * (3 * 3 + 2 * 2));
    }

    #[test]
    fn real_numbers_are_those_with_no_imaginary_part() {
        for number in small() {
            let (re, im) = complex(number);
            match number.real() {
                Some((m, n)) => assert!(near(number, (m as f64 + n as f64 * 2f64.sqrt(), 0.0))),
                None => assert!(im.abs() > 1e-9, "{number:?} is {re}"),
            }
        }
    }

    #[test]
    fn gaussian_integers_have_their_parts() {
        assert_eq!(Number::gaussian(-3, 5).parts(), Some((-3, 5)));
        assert_eq!(Number::OMEGA.parts(), None);
        assert_eq!(Number::ROOT_TWO.parts(), None);
        assert!(near(Number::gaussian(-3, 5), (-3.0, 5.0)));
    }
}
