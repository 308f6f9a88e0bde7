//! The steps of SQLite for queries and changes as a repository grows: a test counts them in a small one and in a large one.
use crate::database::change::Change;
use crate::database::statements::{self, UploadChanges};
use crate::database::{lookups, schema};
use crate::metadata::document::Facts;
use rusqlite::Connection;
use std::sync::atomic::{AtomicUsize, Ordering};
use std::sync::Arc;

const REPO: &str = "acme/web";

/// The number of each kind of manifest in a small repository and in a large one.
const SIZES: [usize; 2] = [50, 1000];

/// The number of steps by which the same work may differ in both.
const TOLERANCE: usize = 40;

/// The name of a manifest of a kind.
fn digest(kind: &str, number: usize) -> String {
    format!("sha256:{kind}{number:06}")
}

/// Returns the push of a manifest.
fn put(digest: String, subject: Option<String>, lists: Vec<String>, tag: Option<String>) -> Change {
    let facts = Facts { media_type: "x/y".to_string(), size: 7, artifact_type: None, subject, lists };
    Change::PutManifest { repo: REPO.to_string(), digest, facts, tag }
}

/// Makes a change.
fn make(connection: &mut Connection, change: &Change) {
    let transaction = connection.transaction().unwrap();
    statements::make(&transaction, change, 5, &mut UploadChanges::default()).unwrap();
    transaction.commit().unwrap();
}

/// Makes a repository with as many images with a tag each, of each of which there are a signature and an index.
fn filled(size: usize) -> Connection {
    let mut connection = Connection::open_in_memory().unwrap();
    assert!(schema::check_or_make(&mut connection).unwrap().is_none());
    connection.execute_batch("PRAGMA foreign_keys = ON").unwrap();
    for number in 0..size {
        let image = digest("image", number);
        make(&mut connection, &put(image.clone(), None, Vec::new(), Some(format!("v{number:06}"))));
        make(&mut connection, &put(digest("signature", number), Some(image.clone()), Vec::new(), None));
        make(&mut connection, &put(digest("index", number), None, vec![image], Some(format!("w{number:06}"))));
    }
    connection
}

/// Returns the number of steps of some work, after it was done once so that its statements are prepared.
fn steps(connection: &mut Connection, mut work: impl FnMut(&mut Connection)) -> usize {
    work(connection);
    let count = Arc::new(AtomicUsize::new(0));
    let counter = count.clone();
    let step = move || {
        counter.fetch_add(1, Ordering::Relaxed);
        false
    };
    connection.progress_handler(1, Some(step));
    work(connection);
    connection.progress_handler(1, None::<fn() -> bool>);
    count.load(Ordering::Relaxed)
}

/// Checks that work in the middle of a repository takes no more steps in a large one.
fn assert_constant(both: &mut [Connection; 2], name: &str, work: impl Fn(&mut Connection, usize)) {
    let [small, large] = [0, 1].map(|which| steps(&mut both[which], |connection| work(connection, SIZES[which] / 2)));
    assert!(small > 0 && large <= small + TOLERANCE, "{name}: {small} steps in a small repository, {large} in a large one");
}

#[test]
fn a_look_takes_no_more_steps_in_a_large_repository() {
    type Look = fn(&Connection, usize) -> rusqlite::Result<()>;
    let looks: [(&str, Look); 16] = [
        ("counts", |rows, _| lookups::counts(rows, REPO).map(drop)),
        ("by_digest", |rows, at| lookups::by_digest(rows, REPO, &digest("image", at)).map(drop)),
        ("by_tag", |rows, at| lookups::by_tag(rows, REPO, &format!("v{at:06}")).map(drop)),
        ("tag_times", |rows, at| lookups::tag_times(rows, REPO, &format!("v{at:06}")).map(drop)),
        ("facts", |rows, at| lookups::facts(rows, REPO, &digest("index", at)).map(drop)),
        ("since", |rows, at| lookups::since(rows, REPO, &digest("image", at)).map(drop)),
        ("subject", |rows, at| lookups::subject(rows, REPO, &digest("signature", at)).map(drop)),
        ("has_size", |rows, _| lookups::has_size(rows, REPO, 8).map(drop)),
        ("indexes_of", |rows, at| lookups::indexes_of(rows, REPO, &digest("image", at), 9).map(drop)),
        ("tags_of", |rows, at| lookups::tags_of(rows, (REPO, &digest("image", at)), 9, |_| true).map(drop)),
        ("tags_to_remove", |rows, at| lookups::tags_to_remove(rows, REPO, &digest("image", at)).map(drop)),
        ("tag_names", |rows, at| lookups::tag_names(rows, (REPO, &format!("v{at:06}")), 9, |_| false).map(drop)),
        ("tags", |rows, at| lookups::tags(rows, REPO, (&format!("v{at:06}"), ""), "v", 9, Some).map(drop)),
        ("referrers", |rows, at| lookups::referrers(rows, (REPO, &digest("image", at), ""), |_, _, _| true)),
        ("images", |rows, _| lookups::images(rows, REPO, 9, |_| false).map(drop)),
        ("untagged", |rows, at| lookups::untagged(rows, (REPO, &digest("signature", at)), 9, Some).map(drop)),
    ];
    let mut both = SIZES.map(filled);
    for (name, look) in looks {
        assert_constant(&mut both, name, |connection, at| look(connection, at).unwrap());
    }
}

#[test]
fn a_change_takes_no_more_steps_in_a_large_repository() {
    let remove = |kind, at| Change::RemoveManifest { repo: REPO.to_string(), digest: digest(kind, at) };
    let move_tag = |at| put(digest("image", at + 1), None, Vec::new(), Some(format!("v{at:06}")));
    let remove_tag = |at| Change::RemoveTag { repo: REPO.to_string(), tag: format!("v{at:06}") };
    let mut both = SIZES.map(filled);
    assert_constant(&mut both, "a push that moves a tag", |connection, at| make(connection, &move_tag(at)));
    assert_constant(&mut both, "the delete of a tag", |connection, at| {
        make(connection, &remove_tag(at));
        make(connection, &move_tag(at));
    });
    for (kind, tag, subject) in [("image", "v", None), ("index", "w", None), ("signature", "u", Some("image"))] {
        assert_constant(&mut both, kind, |connection, at| {
            make(connection, &remove(kind, at));
            let subject = subject.map(|kind| digest(kind, at));
            make(connection, &put(digest(kind, at), subject, Vec::new(), Some(format!("{tag}{at:06}"))));
        });
    }
}
