//! Stand-in for `itertools`: `izip!` of two and of five.

/// Walks several lists side by side.
#[macro_export]
macro_rules! izip {
    ($a:expr, $b:expr $(,)?) => {
        ::std::iter::zip($a, $b)
    };
    ($a:expr, $b:expr, $c:expr, $d:expr, $e:expr $(,)?) => {
        ::std::iter::zip(
            $a,
            ::std::iter::zip($b, ::std::iter::zip($c, ::std::iter::zip($d, $e))),
        )
        .map(|(a, (b, (c, (d, e))))| (a, b, c, d, e))
    };
}
