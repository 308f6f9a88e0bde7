//! What the head of a request says about its content, beyond what the library for HTTP checks (RFC 9112, 6; RFC 9110, 10.1.1).
use crate::http::fault::Fault;
use hyper::header::{HeaderMap, HeaderName, CONTENT_LENGTH, EXPECT, TRANSFER_ENCODING};
use hyper::StatusCode;

/// Returns whether the only member of all fields with a name is a word.
fn is_only(headers: &HeaderMap, name: HeaderName, word: &str) -> bool {
    let mut values = headers.get_all(name).iter();
    let is_word = values.next().map_or(true, |value| value.as_bytes().eq_ignore_ascii_case(word.as_bytes()));
    is_word && values.next().is_none()
}

/// Checks the transfer coding and the expectation of a request, if it has them.
///
/// # Errors
///
/// - The transfer coding is another than `chunked` (RFC 9112, 6.1).
/// - The expectation is another than `100-continue` (RFC 9110, 10.1.1).
pub(crate) fn check(headers: &HeaderMap) -> Result<(), Fault> {
    if !is_only(headers, TRANSFER_ENCODING, "chunked") {
        let message = "the only transfer coding is chunked";
        return Err(Fault::new(StatusCode::NOT_IMPLEMENTED, "UNSUPPORTED", message));
    }
    if !is_only(headers, EXPECT, "100-continue") {
        let message = "the only expectation is 100-continue";
        return Err(Fault::new(StatusCode::EXPECTATION_FAILED, "UNSUPPORTED", message));
    }
    Ok(())
}

/// Returns whether the connection has to end with the request: its content has a transfer coding and may have a length, so a proxy may
/// have seen another end of it, or it has a coding that was not decoded (RFC 9112, 6.1). The library drops a length after the coding.
pub(crate) fn is_last(headers: &HeaderMap, may_have_length: bool) -> bool {
    let has_length = may_have_length || headers.contains_key(CONTENT_LENGTH);
    headers.contains_key(TRANSFER_ENCODING) && (has_length || !is_only(headers, TRANSFER_ENCODING, "chunked"))
}

#[cfg(test)]
mod tests {
    use super::*;

    fn headers(fields: &[(HeaderName, &'static str)]) -> HeaderMap {
        let mut headers = HeaderMap::new();
        for (name, value) in fields {
            headers.append(name, value.parse().unwrap());
        }
        headers
    }

    #[test]
    fn one_coding_and_one_expectation_are_known() {
        let known = [&[][..], &[(TRANSFER_ENCODING, "Chunked")], &[(EXPECT, "100-Continue"), (TRANSFER_ENCODING, "chunked")]];
        for fields in known {
            assert!(check(&headers(fields)).is_ok() && !is_last(&headers(fields), false), "{fields:?}");
        }
        let unknown = [
            &[(TRANSFER_ENCODING, "gzip, chunked")][..],
            &[(TRANSFER_ENCODING, "gzip"), (TRANSFER_ENCODING, "chunked")],
            &[(EXPECT, "nonsense")],
            &[(EXPECT, "")],
            &[(EXPECT, "100-continue, x")],
        ];
        for fields in unknown {
            assert!(check(&headers(fields)).is_err(), "{fields:?}");
        }
    }

    #[test]
    fn two_ends_of_a_content_end_the_connection() {
        assert!(is_last(&headers(&[(CONTENT_LENGTH, "5"), (TRANSFER_ENCODING, "chunked")]), false));
        assert!(is_last(&headers(&[(TRANSFER_ENCODING, "chunked")]), true));
        assert!(is_last(&headers(&[(TRANSFER_ENCODING, "gzip, chunked")]), false));
        assert!(!is_last(&headers(&[(CONTENT_LENGTH, "5")]), true));
    }
}
