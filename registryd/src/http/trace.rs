//! The id of a request's trace (W3C Trace Context, 3.2): that of its header `traceparent`, or a new one.
use hyper::HeaderMap;
use std::fmt;
use uuid::Uuid;

/// The id of a trace: 32 hexadecimal digits, not all of them 0.
#[derive(Clone, Debug, PartialEq, Eq)]
pub(crate) struct TraceId(String);

impl fmt::Display for TraceId {
    fn fmt(&self, text: &mut fmt::Formatter) -> fmt::Result {
        text.write_str(&self.0)
    }
}

/// Returns whether a text has this number of lower-case hexadecimal digits, of which one is not 0 if `is_id`.
fn is_hex(text: &str, digits: usize, is_id: bool) -> bool {
    let is_digit = |byte: u8| byte.is_ascii_digit() || (b'a'..=b'f').contains(&byte);
    text.len() == digits && text.bytes().all(is_digit) && (!is_id || text.bytes().any(|byte| byte != b'0'))
}

/// Returns the id of a header (W3C Trace Context, 3.2.2). A later version may have more fields.
fn parsed(text: &str) -> Option<&str> {
    let fields: Vec<&str> = text.split('-').collect();
    let (version, id, parent, flags) = match fields[..] {
        [version, id, parent, flags] => (version, id, parent, flags),
        [version, id, parent, flags, ..] if version != "00" => (version, id, parent, flags),
        _ => return None,
    };
    let is_valid = is_hex(version, 2, false) && version != "ff" && is_hex(id, 32, true) && is_hex(parent, 16, true);
    (is_valid && is_hex(flags, 2, false)).then_some(id)
}

impl TraceId {
    /// Returns the id of a request's trace. A header that is invalid or is there twice counts as missing.
    pub(super) fn of(headers: &HeaderMap) -> TraceId {
        let mut found = headers.get_all("traceparent").iter();
        let given = match (found.next(), found.next()) {
            (Some(text), None) => text.to_str().ok().and_then(parsed),
            _ => None,
        };
        TraceId(given.map_or_else(|| Uuid::new_v4().as_simple().to_string(), str::to_string))
    }
}

#[cfg(test)]
mod tests {
    use super::*;

    /// The first is the example of the recommendation.
    #[test]
    fn the_id_is_the_second_field() {
        let id = "0af7651916cd43dd8448eb211c80319c";
        for text in ["00-ID-b7ad6b7169203331-01", "00-ID-b7ad6b7169203331-00", "01-ID-b7ad6b7169203331-01-more"] {
            assert_eq!(parsed(&text.replace("ID", id)), Some(id), "{text}");
        }
        for text in [
            "",
            "ID",
            "00-ID-b7ad6b7169203331",
            "00-ID-b7ad6b7169203331-01-more",
            "ff-ID-b7ad6b7169203331-01",
            "0-ID-b7ad6b7169203331-01",
            "00-ID-0000000000000000-01",
            "00-ID-B7AD6B7169203331-01",
            "00-ID0-b7ad6b7169203331-01",
            "00-00000000000000000000000000000000-b7ad6b7169203331-01",
            "00-ID-b7ad6b7169203331-1",
        ] {
            assert_eq!(parsed(&text.replace("ID", id)), None, "{text}");
        }
    }

    #[test]
    fn a_request_without_a_valid_header_gets_a_new_id() {
        let one = TraceId::of(&HeaderMap::new());
        assert!(is_hex(&one.0, 32, true) && one != TraceId::of(&HeaderMap::new()));
        let mut headers = HeaderMap::new();
        let text = "00-0af7651916cd43dd8448eb211c80319c-b7ad6b7169203331-01";
        headers.append("traceparent", text.parse().unwrap());
        assert_eq!(TraceId::of(&headers).0, "0af7651916cd43dd8448eb211c80319c");
        headers.append("traceparent", text.parse().unwrap());
        assert_ne!(TraceId::of(&headers).0, "0af7651916cd43dd8448eb211c80319c");
    }
}
