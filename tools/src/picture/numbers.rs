//! Counts and shares as people read them.

/// Between thousands, and before a unit: a space at which no line ends.
const SPACE: char = '\u{a0}';
const MILLION: u128 = 1_000_000;
/// From here on a count is written as a power of ten: no season comes so far, but a count can.
const POWERS: u128 = 10_000 * MILLION;

/// A count with its thousands apart.
pub fn exact(count: u128) -> String {
    let digits = count.to_string();
    let apart = |(at, digit)| [(at > 0 && (digits.len() - at) % 3 == 0).then_some(SPACE), Some(digit)];
    digits.chars().enumerate().flat_map(apart).flatten().collect()
}

/// So many of a thing.
pub fn counted(count: u128, one: &str) -> String {
    format!("{} {one}{}", exact(count), if count == 1 { "" } else { "s" })
}

/// A count that fits in a column: all of it, or three digits and more in millions, or a power of ten.
pub fn short(count: u128) -> String {
    match count {
        0..MILLION => exact(count),
        MILLION..POWERS => format!("{}{SPACE}M", millions(count)),
        POWERS.. => power(count),
    }
}

/// Whether `short` writes millions.
pub fn is_in_millions(count: u128) -> bool {
    (MILLION..POWERS).contains(&count)
}

/// With as many decimals as leave three digits.
fn millions(count: u128) -> String {
    let rounded = |decimals| rounded(count, MILLION / 10_u128.pow(decimals));
    match (rounded(2), rounded(1)) {
        (hundredths @ 0..1000, _) => format!("{}.{:02}", hundredths / 100, hundredths % 100),
        (_, tenths @ 0..1000) => format!("{}.{}", tenths / 10, tenths % 10),
        _ => exact(rounded(0)),
    }
}

fn power(count: u128) -> String {
    let exponent = count.ilog10();
    match rounded(count, 10_u128.pow(exponent - 1)) {
        100 => format!("1.0×10{}", raised(exponent + 1)),
        digits => format!("{}.{}×10{}", digits / 10, digits % 10, raised(exponent)),
    }
}

fn raised(exponent: u32) -> String {
    const HIGH: [char; 10] = ['⁰', '¹', '²', '³', '⁴', '⁵', '⁶', '⁷', '⁸', '⁹'];
    exponent.to_string().bytes().map(|digit| HIGH[usize::from(digit - b'0')]).collect()
}

/// How often a part goes into a count, to the nearest.
fn rounded(count: u128, part: u128) -> u128 {
    (count + part / 2) / part
}

/// A share in per cent. Nothing and all are said only of nothing and all.
pub fn share(part: u128, whole: u128) -> String {
    let percent = match rounded(100 * part, whole) {
        0 if part > 0 => "<1".to_string(),
        100 if part < whole => ">99".to_string(),
        percent => percent.to_string(),
    };
    format!("{percent}{SPACE}%")
}

#[cfg(test)]
mod tests {
    use super::*;

    /// With plain spaces, to be read here.
    fn plain(text: String) -> String {
        text.replace(SPACE, " ")
    }

    #[test]
    fn thousands_are_apart() {
        let told = [0, 999, 1000, 123_456, 1_234_567].map(|count| plain(exact(count)));
        assert_eq!(told, ["0", "999", "1 000", "123 456", "1 234 567"]);
        assert_eq!(plain(exact(u64::MAX.into())), "18 446 744 073 709 551 615");
        assert_eq!([0, 1, 2000].map(|count| plain(counted(count, "start"))), ["0 starts", "1 start", "2 000 starts"]);
    }

    #[test]
    fn short_counts_and_where_they_change() {
        let told = |count| plain(short(count));
        assert_eq!([0, 9999, 999_999].map(told), ["0", "9 999", "999 999"]);
        assert_eq!([1_000_000, 1_234_999, 1_235_000].map(told), ["1.00 M", "1.23 M", "1.24 M"]);
        assert_eq!([9_994_999, 9_995_000, 99_949_999].map(told), ["9.99 M", "10.0 M", "99.9 M"]);
        assert_eq!([99_950_000, 999_499_999, 999_500_000].map(told), ["100 M", "999 M", "1 000 M"]);
        assert_eq!([9_999_499_999, 9_999_500_000, 10_000_000_000].map(told), ["9 999 M", "10 000 M", "1.0×10¹⁰"]);
        assert_eq!([12_499_999_999, 99_500_000_000].map(told), ["1.2×10¹⁰", "1.0×10¹¹"]);
        assert_eq!([u64::MAX.into(), 6 * u128::from(u64::MAX)].map(told), ["1.8×10¹⁹", "1.1×10²⁰"]);
        assert_eq!([999_999, 1_000_000, 10_000_000_000].map(is_in_millions), [false, true, false]);
    }

    #[test]
    fn shares_say_nothing_and_all_only_where_it_is_so() {
        let told = |part, whole| plain(share(part, whole));
        assert_eq!([told(0, 7), told(7, 7), told(1, 4), told(2, 3)], ["0 %", "100 %", "25 %", "67 %"]);
        let most = 6 * u128::from(u64::MAX);
        assert_eq!([told(1, most), told(most - 1, most), told(1, 200)], ["<1 %", ">99 %", "1 %"]);
    }
}
