//! The ranges of the headers `Content-Range` and `Range`.

/// The largest offset that a range may have in the store (docs/SEMANTICS.md, "Ranges").
pub(crate) const MAX_PLACE: u64 = i64::MAX as u64;

/// Parses the first and the last offset of a chunk: `<start>-<end>` (OCI Distribution Specification 1.1, "Pushing a blob in
/// chunks"). Older clients write `bytes ` or `bytes=` before it, or `/<length>` after it.
pub(crate) fn content_range(text: &str) -> Option<(u64, u64)> {
    let text = text.strip_prefix("bytes").map_or(text, |text| text.trim_start_matches(&[' ', '='][..]));
    let (start, end) = text.split('/').next()?.split_once('-')?;
    let (start, end) = (number(start)?, number(end)?);
    (start <= end && end <= MAX_PLACE).then_some((start, end))
}

/// The range of a header `Range`, independent of the size of the blob.
#[derive(Clone, Copy, Debug, PartialEq, Eq)]
pub(crate) enum RequestedRange {
    All,
    /// From one offset to another, both included.
    Between(u64, u64),
    /// This number of last bytes.
    Last(u64),
}

/// The range of a blob of known size.
#[derive(Debug, PartialEq, Eq)]
pub(crate) enum Part {
    All,
    /// From one offset to another, both included.
    Some(u64, u64),
    /// The range has no byte of the blob.
    Unsatisfiable,
}

/// The maximum number of ranges of a header `Range`.
const MAX_RANGES: usize = 16;

/// Parses a header `Range` (RFC 9110, 14.1.2 and 14.2). Returns one or several ranges. A header that is malformed, or has more
/// ranges than the maximum, is ignored: its only range is all of the content.
pub(crate) fn requested_ranges(text: &str) -> Vec<RequestedRange> {
    let members = text.strip_prefix("bytes=").unwrap_or_default().split(',').map(str::trim).filter(|member| !member.is_empty());
    let ranges: Option<Vec<RequestedRange>> = members.take(MAX_RANGES + 1).map(requested_range).collect();
    ranges.filter(|ranges| (1..=MAX_RANGES).contains(&ranges.len())).unwrap_or_else(|| vec![RequestedRange::All])
}

/// Parses one range of a header `Range`.
fn requested_range(text: &str) -> Option<RequestedRange> {
    let ends = text.split_once('-')?;
    match (ends.0, number(ends.0), number(ends.1)) {
        ("", _, Some(count)) => Some(RequestedRange::Last(count)),
        (_, Some(start), _) if ends.1.is_empty() => Some(RequestedRange::Between(start, u64::MAX)),
        (_, Some(start), Some(last)) if start <= last => Some(RequestedRange::Between(start, last)),
        _ => None,
    }
}

/// Returns the offsets of several ranges in a blob of `size` bytes, in their order, each with its first and its last offset. Ranges
/// that have no byte of the blob are left out. Returns the one range that is served instead if at most one is left, or all of the
/// blob if two overlap (RFC 9110, 14.2).
pub(crate) fn parts(ranges: &[RequestedRange], size: u64) -> Result<Vec<(u64, u64)>, RequestedRange> {
    let of = |range: &RequestedRange| match range.part(size) {
        Part::Some(start, last) => Some((start, last)),
        Part::All | Part::Unsatisfiable => None,
    };
    let found: Vec<(u64, u64)> = ranges.iter().filter_map(of).collect();
    let mut sorted = found.clone();
    sorted.sort_unstable();
    match found[..] {
        [] => Err(ranges.first().copied().unwrap_or(RequestedRange::All)),
        [(start, last)] => Err(RequestedRange::Between(start, last)),
        _ if sorted.windows(2).any(|pair| pair[1].0 <= pair[0].1) => Err(RequestedRange::All),
        _ => Ok(found),
    }
}

impl RequestedRange {
    /// Returns the range in a blob of `size` bytes.
    pub(crate) fn part(self, size: u64) -> Part {
        let (start, last) = match self {
            RequestedRange::All => return Part::All,
            RequestedRange::Between(start, last) => (start, last),
            RequestedRange::Last(count) => (size - count.min(size), u64::MAX),
        };
        if start < size {
            Part::Some(start, last.min(size - 1))
        } else {
            Part::Unsatisfiable
        }
    }
}

/// Parses a number that consists of digits only.
fn number(text: &str) -> Option<u64> {
    let is_digits = text.bytes().all(|byte| byte.is_ascii_digit());
    is_digits.then(|| text.parse().ok()).flatten()
}

#[cfg(test)]
mod tests {
    use super::*;

    #[test]
    fn a_chunks_range_has_two_ends() {
        for text in ["3-7", "bytes 3-7/9", "bytes=3-7"] {
            assert_eq!(content_range(text), Some((3, 7)), "{text}");
        }
        assert_eq!(content_range("0-0"), Some((0, 0)));
        assert_eq!(content_range("0-9223372036854775807"), Some((0, MAX_PLACE)));
        for text in ["", "3", "-3", "3-", "7-3", "+3-7", "a-b", "0-9223372036854775808", "0-18446744073709551615"] {
            assert_eq!(content_range(text), None, "{text}");
        }
    }

    /// The examples of RFC 9110, 14.1.2, for 10,000 bytes, and others.
    #[test]
    fn a_part_is_as_the_standard_says() {
        let cases = [
            ("bytes=0-499", Part::Some(0, 499)),
            ("bytes=500-999", Part::Some(500, 999)),
            ("bytes=-500", Part::Some(9500, 9999)),
            ("bytes=9500-", Part::Some(9500, 9999)),
            ("bytes=9500-20000", Part::Some(9500, 9999)),
            ("bytes=-20000", Part::Some(0, 9999)),
            ("bytes=10000-", Part::Unsatisfiable),
            ("bytes=-0", Part::Unsatisfiable),
            ("bytes=7-3", Part::All),
            ("lines=1-2", Part::All),
            ("bytes=x-", Part::All),
        ];
        for (text, part) in cases {
            let ranges = requested_ranges(text);
            assert_eq!((ranges.len(), ranges[0].part(10_000)), (1, part), "{text}");
        }
        assert_eq!(requested_ranges("bytes=0-")[0].part(0), Part::Unsatisfiable);
    }

    /// The examples of RFC 9110, 14.1.2, for 10,000 bytes, and others.
    #[test]
    fn several_ranges_are_several_parts() {
        let parts_of = |text: &str| parts(&requested_ranges(text), 10_000);
        assert_eq!(parts_of("bytes=0-0,-1"), Ok(vec![(0, 0), (9999, 9999)]));
        assert_eq!(parts_of("bytes= 0-999, 4500-5499, -1000"), Ok(vec![(0, 999), (4500, 5499), (9000, 9999)]));
        assert_eq!(parts_of("bytes=,9-9,,0-8,"), Ok(vec![(9, 9), (0, 8)]));
        assert_eq!(parts_of("bytes=0-0,10000-"), Err(RequestedRange::Between(0, 0)));
        assert_eq!(parts_of("bytes=10000-,20000-"), Err(RequestedRange::Between(10_000, u64::MAX)));
        for text in ["bytes=500-600,601-999,999-1000", "bytes=-9999,1-2", "bytes=0-1,x", "bytes=0-1,3-2", "bytes=,", "bytes="] {
            assert_eq!(parts_of(text), Err(RequestedRange::All), "{text}");
        }
        let list = |count: usize| (0..count).map(|at| format!("{}-{}", 2 * at, 2 * at)).collect::<Vec<_>>().join(",");
        assert_eq!(requested_ranges(&format!("bytes={}", list(MAX_RANGES))).len(), MAX_RANGES);
        assert_eq!(requested_ranges(&format!("bytes={}", list(MAX_RANGES + 1))), [RequestedRange::All]);
    }
}
