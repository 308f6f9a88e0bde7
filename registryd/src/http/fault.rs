//! Failures of requests: a status, a code, and the details in the JSON body (OCI Distribution Specification 1.1, "Error
//! Codes").
use crate::database::writer::WriteFailure;
use crate::metadata::bounds::Excess;
use crate::metadata::limits::Limit;
use crate::metadata::names::tenant_of;
use crate::store::client::StoreUnavailable;
use crate::store::frames::{Reason, Refusal};
use hyper::header::{HeaderValue, CONTENT_TYPE};
use hyper::{Body, Response, StatusCode};
use serde_json::{json, Value};

/// The time after which a client may retry if its tenant has too many uploads, in seconds. `skopeo` retries four times.
const UPLOADS_REST: &str = "5";

/// A failure of a request.
#[derive(Debug)]
pub(crate) struct Fault {
    status: StatusCode,
    code: &'static str,
    message: String,
    detail: Value,
    header: Option<(&'static str, String)>,
}

impl Fault {
    pub(crate) fn new(status: StatusCode, code: &'static str, message: impl Into<String>) -> Fault {
        Fault { status, code, message: message.into(), detail: Value::Null, header: None }
    }

    fn with_header(self, name: &'static str, value: impl Into<String>) -> Fault {
        Fault { header: Some((name, value.into())), ..self }
    }

    /// Returns the failure with another message.
    pub(crate) fn because(self, message: &str) -> Fault {
        Fault { message: message.to_string(), ..self }
    }

    fn with_detail(self, detail: Value) -> Fault {
        Fault { detail, ..self }
    }

    /// The path does not support the method.
    pub(crate) fn method(allowed: &'static str) -> Fault {
        Fault::new(StatusCode::METHOD_NOT_ALLOWED, "UNSUPPORTED", "the path does not support the method")
            .with_header("Allow", allowed)
    }

    /// The blob would exceed the maximum length.
    pub(crate) fn too_long(most: u64) -> Fault {
        Fault::new(StatusCode::PAYLOAD_TOO_LARGE, "SIZE_INVALID", format!("a blob may have at most {most} bytes"))
    }

    /// The path matches no endpoint of the specification.
    pub(crate) fn path() -> Fault {
        Fault::new(StatusCode::NOT_FOUND, "NAME_UNKNOWN", "the path matches no endpoint")
    }

    pub(crate) fn upload_unknown() -> Fault {
        Fault::new(StatusCode::NOT_FOUND, "BLOB_UPLOAD_UNKNOWN", "there is no such upload")
    }

    /// The repository's tenant does not exist.
    pub(crate) fn tenant_unknown(repo: &str) -> Fault {
        let message = format!("there is no such tenant: {:.255}", tenant_of(repo));
        Fault::new(StatusCode::NOT_FOUND, "NAME_UNKNOWN", message)
    }

    pub(crate) fn manifest_unknown() -> Fault {
        Fault::new(StatusCode::NOT_FOUND, "MANIFEST_UNKNOWN", "the repository has no such manifest")
    }

    /// Each look-up of the tag found a manifest that was deleted before it was read.
    pub(crate) fn tag_changing() -> Fault {
        Fault::new(StatusCode::SERVICE_UNAVAILABLE, "MANIFEST_UNKNOWN", "the tag changed too often while it was read")
            .with_header("Retry-After", "1")
    }

    /// An index of the repository lists the manifest.
    pub(crate) fn listed(index: &str) -> Fault {
        Fault::new(StatusCode::FORBIDDEN, "DENIED", "an index lists the manifest: delete the index first")
            .with_detail(json!({ "manifest": index }))
    }

    /// The tag is immutable: it names the manifest with this digest for ever. The status is 409 as the sender may have all rights.
    pub(crate) fn immutable(tag: &str, digest: &str) -> Fault {
        let message = format!("tag {tag} is immutable: it names {digest}, and cannot be moved or deleted");
        Fault::new(StatusCode::CONFLICT, "DENIED", message).with_detail(json!({ "tag": tag, "digest": digest }))
    }

    /// The tag is served only with a signature, which its image lacks. `has_more` is whether the image has more than were tried.
    pub(crate) fn unsigned(tag: &str, digest: &str, rule: &str, has_more: bool) -> Fault {
        let tried = if has_more { " among the newest that were tried" } else { "" };
        let message = format!("tag {tag} must be signed: {digest} has no signature by a key of the rule `{rule}`{tried}");
        let detail = json!({ "tag": tag, "digest": digest, "rule": rule });
        Fault::new(StatusCode::FORBIDDEN, "DENIED", message).with_detail(detail)
    }

    /// The content is not a manifest, or differs from its description in the request.
    pub(crate) fn manifest_invalid(message: impl Into<String>) -> Fault {
        Fault::new(StatusCode::BAD_REQUEST, "MANIFEST_INVALID", message)
    }

    /// The range of a chunk differs from the range of its bytes.
    pub(crate) fn content_range() -> Fault {
        Fault::new(StatusCode::BAD_REQUEST, "SIZE_INVALID", "Content-Range is not `<start>-<end>` of the content")
    }

    /// A chunk does not begin at the end of the upload.
    pub(crate) fn out_of_order(received: u64) -> Fault {
        Fault::new(StatusCode::RANGE_NOT_SATISFIABLE, "BLOB_UPLOAD_INVALID", format!("{received} bytes were received"))
            .with_header("Range", range_text(received))
            .with_detail(json!({ "received": received }))
    }

    /// The client disconnected or stopped sending.
    pub(crate) fn cut_off() -> Fault {
        Fault::new(StatusCode::REQUEST_TIMEOUT, "SIZE_INVALID", "the content is incomplete")
    }

    /// A bug in this program stopped the request.
    pub(crate) fn internal() -> Fault {
        Fault::new(StatusCode::INTERNAL_SERVER_ERROR, "UNSUPPORTED", "the server failed while it served the request")
    }

    /// The server is overloaded; the client may retry soon.
    pub(crate) fn unavailable(message: &str) -> Fault {
        Fault::new(StatusCode::SERVICE_UNAVAILABLE, "TOOMANYREQUESTS", message).with_header("Retry-After", "1")
    }

    /// The disk of the folder has less free than its minimum.
    pub(crate) fn disk_full(free: u64, min_free: u64) -> Fault {
        let message = "the disk of the registry is almost full: only reads and deletes are served";
        Fault::new(StatusCode::INSUFFICIENT_STORAGE, "UNSUPPORTED", message)
            .with_header("Retry-After", "60")
            .with_detail(json!({ "free": free, "minimum": min_free }))
    }

    /// The store, started without `--sha512`, hashed the content by SHA-256 as it came, wrote it to a file, and does not read it again.
    pub(crate) fn unhashed() -> Fault {
        let message = "the registry runs without --sha512, and has hashed the content by SHA-256 alone: close it by sha256";
        Fault::new(StatusCode::BAD_REQUEST, "UNSUPPORTED", message).with_detail(json!({ "algorithms": ["sha256"] }))
    }

    /// The disk of the folder has no room for a change.
    pub(crate) fn no_room() -> Fault {
        let message = "the disk of the registry is full: only reads are served";
        Fault::new(StatusCode::INSUFFICIENT_STORAGE, "UNSUPPORTED", message).with_header("Retry-After", "60")
    }

    /// The tenant moves to another registry. The status is 429, as clients that do not retry after a 503 do after it.
    pub(crate) fn moving(message: &str) -> Fault {
        Fault::new(StatusCode::TOO_MANY_REQUESTS, "TOOMANYREQUESTS", message).with_header("Retry-After", "2")
    }

    /// The upstream of a mirror wants no requests for a time.
    pub(crate) fn limited_upstream(seconds: u64) -> Fault {
        let message = "the upstream of this mirror limits the rate of requests: retry later";
        Fault::new(StatusCode::TOO_MANY_REQUESTS, "TOOMANYREQUESTS", message).with_header("Retry-After", seconds.to_string())
    }

    /// The tenant is a mirror, into which nothing is pushed.
    pub(crate) fn mirror(repo: &str, upstream: &str, allowed: &'static str) -> Fault {
        let message = format!("tenant {} is a mirror of {upstream}: push there", tenant_of(repo));
        Fault::new(StatusCode::METHOD_NOT_ALLOWED, "DENIED", message).with_header("Allow", allowed)
    }

    /// Returns the message.
    pub(crate) fn message(&self) -> &str {
        &self.message
    }

    /// Returns the status.
    pub(crate) fn status(&self) -> StatusCode {
        self.status
    }

    /// Returns whether there is no such thing.
    pub(crate) fn is_unknown(&self) -> bool {
        self.status == StatusCode::NOT_FOUND
    }

    /// Returns whether a limit of the tenant is reached, so that a delete would help.
    pub(crate) fn is_of_bound(&self) -> bool {
        self.status == StatusCode::FORBIDDEN && self.detail["limit"].is_string()
    }

    /// Returns whether the bound on a repository's manifests is reached.
    pub(crate) fn is_of_repository(&self) -> bool {
        self.detail["limit"] == "manifests"
    }

    /// The request has no credentials, or they are wrong.
    pub(crate) fn unauthorized(challenge: impl Into<String>) -> Fault {
        Fault::new(StatusCode::UNAUTHORIZED, "UNAUTHORIZED", "valid credentials are required")
            .with_header("WWW-Authenticate", challenge)
    }

    /// The user does not have a right in the repository.
    pub(crate) fn denied(user: &str, right: &str, repo: &str) -> Fault {
        Fault::new(StatusCode::FORBIDDEN, "DENIED", format!("{user} does not have the right to {right} in {repo}"))
    }

    /// A call on a repository has reached a limit, whose number is given. The status is 403 because clients do not show the message of a 507. For uploads it
    /// is 429, since they end without anybody's doing, and clients wait.
    pub(crate) fn limit(limit: Limit, most: usize, repo: &str) -> Fault {
        let tenant = tenant_of(repo);
        let (code, name) = match limit {
            Limit::Uploads | Limit::LastingUploads => ("TOOMANYREQUESTS", "uploads"),
            Limit::Repositories => ("DENIED", "repositories"),
            Limit::Manifests => ("DENIED", "manifests"),
        };
        let message = match limit {
            Limit::Uploads | Limit::LastingUploads => {
                format!("tenant {tenant} has {most} open uploads, which is the maximum: retry, or finish or delete one")
            }
            Limit::Repositories => {
                format!("tenant {tenant} has {most} repositories, which is the maximum: delete all that one of them has")
            }
            Limit::Manifests => {
                format!("repository {repo} has {most} manifests, which is the maximum: delete one")
            }
        };
        let detail = json!({ "limit": name, "most": most });
        match limit {
            Limit::Uploads | Limit::LastingUploads => {
                Fault::new(StatusCode::TOO_MANY_REQUESTS, code, message).with_header("Retry-After", UPLOADS_REST)
            }
            Limit::Repositories | Limit::Manifests => Fault::new(StatusCode::FORBIDDEN, code, message),
        }
        .with_detail(detail)
    }

    /// A blob is new to a tenant that has the maximum number of blobs. The status is 403 as for the other limits of a tenant.
    pub(crate) fn full_share(tenant: &str, share: u64) -> Fault {
        let message =
            format!("tenant {tenant} has {share} different blobs, which is its share: delete one in all its repositories");
        Fault::new(StatusCode::FORBIDDEN, "DENIED", message).with_detail(json!({ "limit": "blobs", "most": share }))
    }

    /// A push would exceed a bound on a tenant's manifests or tags. The status is 403 as for the quota.
    pub(crate) fn bound(excess: Excess, tenant: &str) -> Fault {
        let has_maximum = |most: u64, what: &str| format!("tenant {tenant} may have at most {most} {what}: delete one");
        let (message, detail) = match excess {
            Excess::Manifests { most } => (has_maximum(most, "manifests"), json!({ "limit": "tenant_manifests", "most": most })),
            Excess::Tags { most } => (has_maximum(most, "tags"), json!({ "limit": "tenant_tags", "most": most })),
            Excess::ManifestBytes { used, added, most } => {
                let message = format!("tenant {tenant} has {used} bytes of manifests: {added} more exceed the maximum of {most}");
                (message, json!({ "limit": "tenant_manifest_bytes", "most": most, "used": used }))
            }
        };
        Fault::new(StatusCode::FORBIDDEN, "DENIED", message).with_detail(detail)
    }

    /// Returns the response, with the failure as JSON.
    pub(crate) fn into_response(self) -> Response<Body> {
        let Fault { status, code, message, detail, header } = self;
        let text = json!({ "errors": [{ "code": code, "message": message, "detail": detail }] }).to_string();
        let mut response = Response::new(Body::from(text + "\n"));
        *response.status_mut() = status;
        response.headers_mut().insert(CONTENT_TYPE, HeaderValue::from_static("application/json"));
        if let Some((name, value)) = header {
            if let Ok(value) = HeaderValue::from_str(&value) {
                response.headers_mut().insert(name, value);
            }
        }
        response
    }
}

/// Returns the header value for the range of the bytes received. An empty upload has `0-0`, as in other registries, because
/// the header has no form for an empty range.
pub(crate) fn range_text(received: u64) -> String {
    format!("0-{}", received.saturating_sub(1))
}

impl From<StoreUnavailable> for Fault {
    fn from(_: StoreUnavailable) -> Fault {
        Fault::new(StatusCode::SERVICE_UNAVAILABLE, "UNSUPPORTED", "the store has ended, or does not reply in time")
            .with_header("Retry-After", "1")
    }
}

impl From<WriteFailure> for Fault {
    fn from(failure: WriteFailure) -> Fault {
        match failure {
            WriteFailure::NoRoom => Fault::no_room(),
            WriteFailure::Unavailable => {
                Fault::new(StatusCode::SERVICE_UNAVAILABLE, "UNSUPPORTED", "the database has ended, or does not reply in time")
                    .with_header("Retry-After", "1")
            }
        }
    }
}

impl From<Refusal> for Fault {
    fn from(refusal: Refusal) -> Fault {
        let Refusal { reason, first, second, digest } = refusal;
        let soon = |code, message: &str| Fault::new(StatusCode::TOO_MANY_REQUESTS, code, message).with_header("Retry-After", "1");
        match reason {
            Reason::NameInvalid => Fault::new(StatusCode::BAD_REQUEST, "NAME_INVALID", "the repository name is invalid"),
            Reason::DigestInvalid => {
                Fault::new(StatusCode::BAD_REQUEST, "DIGEST_INVALID", "the digest is invalid, or differs from the content's")
            }
            Reason::NameUnknown => Fault::new(StatusCode::NOT_FOUND, "NAME_UNKNOWN", "there is no such tenant or repository"),
            Reason::UploadUnknown => Fault::upload_unknown(),
            Reason::SizeInvalid => {
                Fault::new(StatusCode::PAYLOAD_TOO_LARGE, "SIZE_INVALID", "the content is longer than the maximum of a blob")
            }
            Reason::RangeInvalid => Fault::out_of_order(first),
            Reason::BlobUnknown => Fault::new(StatusCode::NOT_FOUND, "BLOB_UNKNOWN", "the repository has no such blob"),
            Reason::ManifestInvalid => Fault::manifest_invalid("the content is not a manifest"),
            Reason::ManifestUnknown => Fault::manifest_unknown(),
            Reason::ManifestBlobUnknown => {
                Fault::new(StatusCode::NOT_FOUND, "MANIFEST_BLOB_UNKNOWN", "the repository lacks a blob of the manifest")
                    .with_detail(json!({ "digest": digest }))
            }
            Reason::Quota => Fault::new(StatusCode::FORBIDDEN, "DENIED", "the tenant's quota is exceeded")
                .with_detail(json!({ "used": first, "quota": second })),
            Reason::Referenced => Fault::new(StatusCode::FORBIDDEN, "DENIED", "a manifest refers to the blob")
                .with_detail(json!({ "manifest": digest })),
            Reason::StoreFull => Fault::new(StatusCode::INSUFFICIENT_STORAGE, "UNSUPPORTED", "the store has no free slot")
                .with_header("Retry-After", "1"),
            Reason::TooManyReaders => soon("TOOMANYREQUESTS", "the blob has too many readers"),
            // Limits are named by `Fault::limit` and `Fault::full_share`, except those of totals that no store reaches.
            Reason::LimitReached => Fault::new(StatusCode::FORBIDDEN, "DENIED", "a limit of the store is reached"),
            Reason::Memory => {
                Fault::new(StatusCode::SERVICE_UNAVAILABLE, "UNSUPPORTED", "out of memory").with_header("Retry-After", "1")
            }
            Reason::Busy => soon("TOOMANYREQUESTS", "another request is appending to the upload"),
            Reason::RepoInUse => Fault::new(StatusCode::CONFLICT, "DENIED", "the repository is in use"),
            Reason::Unreadable => {
                let message = "the content is damaged on the disk of the registry: push it again";
                Fault::new(StatusCode::INTERNAL_SERVER_ERROR, "UNSUPPORTED", message)
            }
            Reason::WeightSpent | Reason::Other(_) => {
                Fault::new(StatusCode::INTERNAL_SERVER_ERROR, "UNSUPPORTED", "the store sent an unexpected reply")
            }
        }
    }
}
