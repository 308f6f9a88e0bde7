//! Names of repositories and tenants.

/// Returns whether a text consists of runs of `a-z0-9`, joined by `.`, `_`, `__` or dashes.
pub fn is_component(text: &str) -> bool {
    let bytes = text.as_bytes();
    let is_plain = |c: u8| c.is_ascii_lowercase() || c.is_ascii_digit();
    let mut i = 0;
    loop {
        let start = i;
        while i < bytes.len() && is_plain(bytes[i]) {
            i += 1;
        }
        if i == start {
            return false;
        }
        if i == bytes.len() {
            return true;
        }
        let start = i;
        while i < bytes.len() && bytes[i] == bytes[start] {
            i += 1;
        }
        match (bytes[start], i - start) {
            (b'.', 1) | (b'_', 1 | 2) | (b'-', _) => {}
            _ => return false,
        }
    }
}

pub fn is_repo(text: &str) -> bool {
    text.len() <= 255 && text.split('/').all(is_component)
}

pub fn tenant_of(repo: &str) -> &str {
    repo.split('/').next().unwrap_or(repo)
}
