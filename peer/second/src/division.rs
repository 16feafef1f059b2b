//! Long division of polynomials over two elements, on rows of coefficients with the highest power first.

/// The remainder of a division, with one coefficient for every power below the divisor's.
pub fn remainder(dividend: &[bool], divisor: &[bool]) -> Vec<bool> {
    assert!(divisor[0], "the divisor begins with its highest power");
    let mut rest = dividend.to_vec();
    let kept = divisor.len() - 1;
    for start in 0..dividend.len() - kept {
        if rest[start] {
            subtract(&mut rest[start..], divisor);
        }
    }
    rest.split_off(dividend.len() - kept)
}

/// Adding and taking away are the same here: each coefficient changes where the other row has a 1.
fn subtract(row: &mut [bool], other: &[bool]) {
    for (mine, &theirs) in row.iter_mut().zip(other) {
        *mine ^= theirs;
    }
}

#[cfg(test)]
mod tests {
    use super::*;

    fn row(text: &str) -> Vec<bool> {
        text.chars().map(|c| c == '1').collect()
    }

    #[test]
    fn divides_as_on_paper() {
        // x^3 + x + 1 into x^6: x^6 = (x^3 + x + 1)(x^3 + x + 1) + x^2 + 1.
        assert_eq!(remainder(&row("1000000"), &row("1011")), row("101"));
    }

    #[test]
    fn a_multiple_leaves_nothing() {
        // (x^2 + 1)(x + 1) = x^3 + x^2 + x + 1.
        assert_eq!(remainder(&row("1111"), &row("101")), row("00"));
    }

    #[test]
    fn what_is_smaller_than_the_divisor_stays() {
        assert_eq!(remainder(&row("011"), &row("1011")), row("011"));
    }
}
