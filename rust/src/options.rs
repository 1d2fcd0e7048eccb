//! The options of a cache.
use crate::calls::Cache;
use std::time::Duration;

/// How a cache behaves.
#[derive(Clone, Copy, Debug)]
pub struct CacheOptions {
    /// Whether the cache serves more than one user. Default: `true`.
    pub shared: bool,
    /// The fraction of the time from Last-Modified to Date that is the lifetime of a response that states none
    /// (RFC 7234, section 4.2.2). Default: 0.1.
    ///
    /// The library uses the simplest fraction that rounds to this number, such as 1/10 for 0.1.
    pub cache_heuristic: f32,
    /// The least lifetime of a response with `immutable` and no `max-age` or `s-maxage`. Default: 24 hours.
    pub immutable_min_time_to_live: Duration,
    /// Whether a response with both `pre-check` and `post-check` loses these directives, `no-cache`,
    /// `no-store`, `must-revalidate`, Expires and Pragma. Default: `false`.
    pub ignore_cargo_cult: bool,
}

impl Default for CacheOptions {
    fn default() -> CacheOptions {
        CacheOptions {
            shared: true,
            cache_heuristic: 0.1,
            immutable_min_time_to_live: Duration::from_secs(24 * 60 * 60),
            ignore_cargo_cult: false,
        }
    }
}

impl CacheOptions {
    pub(crate) fn cache(&self) -> Cache {
        let (numerator, denominator) = simplest_fraction(self.cache_heuristic);
        let mut cache = Cache::with_secrets();
        cache.immutable_seconds = self.immutable_min_time_to_live.as_secs();
        cache.immutable_nanoseconds = self.immutable_min_time_to_live.subsec_nanos();
        cache.heuristic_numerator = numerator;
        cache.heuristic_denominator = denominator;
        cache.shared = self.shared.into();
        cache.ignore_cargo_cult = self.ignore_cargo_cult.into();
        cache
    }
}

/// Returns the convergent of a number's continued fraction with the least denominator that rounds to the number.
///
/// A number that isn't positive yields 0, and a number that is too great for a numerator yields the greatest one.
fn simplest_fraction(number: f32) -> (u32, u32) {
    if number.is_nan() || number <= 0.0 {
        return (0, 1);
    }
    if number >= u32::MAX as f32 {
        return (u32::MAX, 1);
    }
    let mut rest = f64::from(number);
    let (mut before, mut last) = ((0_u64, 1_u64), (1_u64, 0_u64));
    loop {
        let whole = rest.floor();
        let next = (
            whole as u64 * last.0 + before.0,
            whole as u64 * last.1 + before.1,
        );
        if next.0 > u32::MAX.into() || next.1 > u32::MAX.into() {
            return (last.0 as u32, last.1.max(1) as u32);
        }
        if (next.0 as f64 / next.1 as f64) as f32 == number {
            return (next.0 as u32, next.1 as u32);
        }
        (before, last) = (last, next);
        rest = 1.0 / (rest - whole);
    }
}

#[cfg(test)]
mod tests {
    use super::simplest_fraction;

    #[test]
    fn fractions() {
        assert_eq!(simplest_fraction(0.1), (1, 10));
        assert_eq!(simplest_fraction(0.5), (1, 2));
        assert_eq!(simplest_fraction(1.0 / 1024.0), (1, 1024));
        assert_eq!(simplest_fraction(2.0), (2, 1));
        assert_eq!(simplest_fraction(1.0 / 3.0), (1, 3));
        assert_eq!(simplest_fraction(0.0), (0, 1));
        assert_eq!(simplest_fraction(-1.0), (0, 1));
        assert_eq!(simplest_fraction(f32::NAN), (0, 1));
        assert_eq!(simplest_fraction(f32::INFINITY), (u32::MAX, 1));
        assert_eq!(simplest_fraction(f32::MIN_POSITIVE), (0, 1));
    }

    #[test]
    fn fractions_round_to_their_numbers() {
        for i in 1..100_000_u32 {
            let number = i as f32 * 0.000_37;
            let (numerator, denominator) = simplest_fraction(number);
            assert_eq!(
                (f64::from(numerator) / f64::from(denominator)) as f32,
                number,
                "{number}"
            );
        }
    }
}
