//! Patterns of texts: `*` matches any text, also none, and `?` one byte, so one character of ASCII.

/// Returns whether a pattern matches a text.
pub(crate) fn is_matched(pattern: &str, text: &str) -> bool {
    let (pattern, text) = (pattern.as_bytes(), text.as_bytes());
    let (mut at, mut read) = (0, 0);
    // The place after the last `*`, and the end of the text that it matches so far.
    let mut star = None;
    while read < text.len() {
        match (pattern.get(at), star) {
            (Some(b'*'), _) => {
                at += 1;
                star = Some((at, read));
            }
            (Some(byte), _) if *byte == b'?' || *byte == text[read] => {
                at += 1;
                read += 1;
            }
            (_, Some((after, end))) => {
                star = Some((after, end + 1));
                at = after;
                read = end + 1;
            }
            (_, None) => return false,
        }
    }
    pattern[at..].iter().all(|byte| *byte == b'*')
}

#[cfg(test)]
mod tests {
    use super::*;

    #[test]
    fn a_pattern_has_stars_and_question_marks() {
        for (pattern, tag) in [
            ("v1.0", "v1.0"),
            ("*", "latest"),
            ("v*", "v"),
            ("v*", "v1.2.3"),
            ("v?", "v1"),
            ("v?.*", "v1.2"),
            ("*-rc?", "v1-rc1-rc2"),
            ("*1*", "v1.0"),
            ("*a*a*b", "aaab"),
            ("**", "x"),
            ("?*", "x"),
        ] {
            assert!(is_matched(pattern, tag), "{pattern} {tag}");
        }
        for (pattern, tag) in [
            ("v1.0", "v1x0"),
            ("v1.0", "v1.0.1"),
            ("v1.0", "v1"),
            ("v1.0", "xv1.0"),
            ("v?", "v"),
            ("v?", "v10"),
            ("v*", "V1"),
            ("*-rc?", "v1-rc"),
            ("*a*a*b", "aab1"),
            ("?*?", "x"),
        ] {
            assert!(!is_matched(pattern, tag), "{pattern} {tag}");
        }
    }
}
