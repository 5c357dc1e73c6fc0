//! Smaller inputs that might still show a difference.

/// The smallest input found: steps to any smaller candidate that still fails, until none does.
pub fn smallest<I: Clone>(start: &I, smaller: impl Fn(&I) -> Vec<I>, fails: impl Fn(&I) -> bool) -> I {
    let mut best = start.clone();
    let mut budget = 3_000u32;
    'again: loop {
        for candidate in smaller(&best) {
            if budget == 0 {
                return best;
            }
            budget -= 1;
            if fails(&candidate) {
                best = candidate;
                continue 'again;
            }
        }
        return best;
    }
}

/// Plainer floats than x, the plainest first.
pub fn float(x: f32) -> Vec<f32> {
    let cost = |v: f32| {
        let bits = v.to_bits();
        let mantissa = if bits & 0x007f_ffff == 0 { 0 } else { 24 - bits.trailing_zeros().min(23) };
        let exponent = ((bits >> 23) & 0xff).abs_diff(127);
        (v.is_nan(), v.is_infinite(), mantissa, exponent, bits >> 31)
    };
    let bits = x.to_bits();
    let mut list = vec![0.0, 1.0, 0.5, 2.0, -1.0, -0.0, f32::from_bits(bits & 0x7fff_ffff), x.trunc()];
    for keep in [0, 1, 2, 4, 8, 12, 16, 20, 22] {
        list.push(f32::from_bits(bits & !((1u32 << (23 - keep)) - 1)));
    }
    list.extend([x / 2.0, x * 2.0]);
    list.retain(|&v| cost(v) < cost(x));
    list
}

/// Smaller whole numbers than n, 0 first.
pub fn number(n: i64) -> Vec<i64> {
    let mut list = vec![0, 1, n / 2, n - n.signum(), -n];
    list.retain(|&v| (v.unsigned_abs(), v < 0) < (n.unsigned_abs(), n < 0));
    list
}

/// The list with a half or one element left out.
pub fn fewer<T: Clone>(list: &[T]) -> Vec<Vec<T>> {
    let mut out = Vec::new();
    if list.len() > 1 {
        let half = list.len() / 2;
        out.push(list[..half].to_vec());
        out.push(list[half..].to_vec());
    }
    for i in 0..list.len() {
        let mut less = list.to_vec();
        less.remove(i);
        out.push(less);
    }
    out
}

/// The list with one element replaced by each smaller one.
pub fn each<T: Clone>(list: &[T], smaller: impl Fn(&T) -> Vec<T>) -> Vec<Vec<T>> {
    let mut out = Vec::new();
    for (i, element) in list.iter().enumerate() {
        for less in smaller(element) {
            let mut changed = list.to_vec();
            changed[i] = less;
            out.push(changed);
        }
    }
    out
}
