//! The words of whole quotients: of both signs, most of them with a fraction, so that they show which way it is rounded.

use super::bench::parenthesised;
use super::prng::Prng;

fn words(text: &str) -> Vec<String> {
    text.split(' ').map(str::to_string).collect()
}

fn one_of(prng: &mut Prng, forms: &[&str]) -> Vec<String> {
    let form = prng.pick(forms);
    words(form)
}

/// A factor over a divisor that leaves most wholes a fraction, or over 0.
pub fn divided(prng: &mut Prng, factor: Vec<String>) -> Vec<String> {
    [factor, one_of(prng, &["/ 2", "/ - 2", "/ 3", "/ - 3", "/ 7", "/ - 10", "/ 0"])].concat()
}

/// A factor with a fraction added that rounding down takes off again. If it is dropped instead, a negative factor becomes another one.
pub fn rounded(prng: &mut Prng, factor: Vec<String>) -> Vec<String> {
    let (added, divisor) = *prng.pick(&[("* 2 + 1", "/ 2"), ("* - 2 - 1", "/ - 2"), ("* 3 + 1", "/ 3"), ("* - 3 - 2", "/ - 3")]);
    [parenthesised([factor, words(added)].concat()), words(divisor)].concat()
}

/// What equals a factor if rounding it down to a multiple leaves a certain rest. If the fraction is dropped instead, it equals no negative
/// factor, or no positive one where the divisor is negative.
pub fn with_rest(prng: &mut Prng, factor: Vec<String>) -> Vec<String> {
    [factor, one_of(prng, &["/ 2 * 2 + 1", "/ - 2 * - 2 - 1", "/ 3 * 3 + 1", "/ - 3 * - 3 - 2"])].concat()
}

/// A quotient at the ends of 32 bits; -2147483648 / -1 is the one beyond them.
pub fn at_the_ends(prng: &mut Prng) -> Vec<String> {
    let least = "( - 2147483647 - 1 )";
    let dividend = one_of(prng, &[least, least, "- 2147483647", "2147483647"]);
    [dividend, one_of(prng, &["/ - 1", "/ - 1", "/ - 1", "/ 1", "/ 2", "/ - 2"])].concat()
}
