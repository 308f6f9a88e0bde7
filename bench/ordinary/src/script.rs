//! Parses the rows of a script.

/// The command of a row.
#[derive(Clone, Copy, PartialEq, Eq)]
pub enum Verb {
    Start,
    Status,
    Append,
    Close,
    Abandon,
    Mount,
    Delete,
    PutManifest,
    GetManifest,
    DeleteManifest,
    Lease,
    Read,
    Share,
    Verify,
    GiveBack,
    Sweep,
}

use Verb::*;

pub struct Row {
    pub lane: u8,
    pub verb: Verb,
    pub repo: String,
    pub key: String,
    pub session: u32,
    pub digest: String,
    pub range: String,
    pub body: Vec<u8>,
}

fn verb(text: &[u8]) -> Option<Verb> {
    Some(match text {
        b"start" => Start,
        b"status" => Status,
        b"append" => Append,
        b"close" => Close,
        b"abandon" => Abandon,
        b"mount" => Mount,
        b"delete" => Delete,
        b"put_manifest" => PutManifest,
        b"get_manifest" => GetManifest,
        b"delete_manifest" => DeleteManifest,
        b"lease" => Lease,
        b"read" => Read,
        b"share" => Share,
        b"verify" => Verify,
        b"give_back" => GiveBack,
        b"sweep" => Sweep,
        _ => return None,
    })
}

fn number(text: &[u8], most: usize) -> Option<u64> {
    if text.is_empty() || text.len() > most || !text.iter().all(u8::is_ascii_digit) {
        return None;
    }
    std::str::from_utf8(text).ok()?.parse().ok()
}

fn is_lease(text: &[u8]) -> bool {
    (1..=32).contains(&text.len()) && text.iter().all(|c| c.is_ascii_lowercase() || c.is_ascii_digit())
}

/// Returns a field as text. A field that is not UTF-8 is no valid name, digest or range, so invalid bytes are replaced.
fn text(field: &[u8]) -> String {
    String::from_utf8_lossy(field).into_owned()
}

fn row(record: &csv::ByteRecord) -> Option<Row> {
    if record.len() != 7 {
        return None;
    }
    let lane = u8::try_from(number(&record[0], 3)?).ok()?;
    let verb = verb(&record[1])?;
    let by_session = matches!(verb, Status | Append | Close | Abandon);
    let by_lease = matches!(verb, Lease | Read | Share | Verify | GiveBack);
    let session = if by_session { number(&record[3], 10)? } else { 0 };
    if by_session && !(1..=u64::from(u32::MAX)).contains(&session) {
        return None;
    }
    if (by_lease && !is_lease(&record[3])) || (verb == Share && !is_lease(&record[6])) {
        return None;
    }
    let uses = [
        !matches!(verb, Read | Share | Verify | GiveBack | Sweep),
        by_session || by_lease || verb == Mount,
        matches!(verb, Close | Mount | Delete | GetManifest | DeleteManifest | Lease),
        matches!(verb, Append | Close | Read),
        matches!(verb, Append | Close | PutManifest | Share),
    ];
    if (0..5).any(|i| !uses[i] && !record[i + 2].is_empty()) {
        return None;
    }
    Some(Row {
        lane,
        verb,
        repo: text(&record[2]),
        key: text(&record[3]),
        session: session as u32,
        digest: text(&record[4]),
        range: text(&record[5]),
        body: record[6].to_vec(),
    })
}

/// Returns the rows of a script, or the number of the first malformed one.
pub fn rows(script: &[u8]) -> Result<Vec<Row>, usize> {
    let script = script.strip_prefix(b"\xef\xbb\xbf").unwrap_or(script);
    let mut reader = csv::ReaderBuilder::new().has_headers(false).flexible(true).from_reader(script);
    let mut record = csv::ByteRecord::new();
    let mut rows = Vec::new();
    while let Ok(true) = reader.read_byte_record(&mut record) {
        match row(&record) {
            Some(row) if rows.len() < 65_536 => rows.push(row),
            _ => return Err(rows.len() + 1),
        }
    }
    Ok(rows)
}
