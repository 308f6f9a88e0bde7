/* A C interface to a store in a `blobd` process. Each call is made on a connection. A connection serves one call at a time.
 * Several connections may be used at once, each by one thread. docs/PROTOCOL.md defines the bytes on a connection. A program
 * that has to survive the end of the store ignores SIGPIPE. */
#ifndef BLOBD_H
#define BLOBD_H
#include <stddef.h>
#include <stdint.h>

typedef struct blobd blobd;
typedef struct blobd_connection blobd_connection;

/* The commands of requests. */
enum blobd_command {
    BLOBD_START = 1, BLOBD_STATUS, BLOBD_APPEND, BLOBD_CLOSE, BLOBD_ABANDON, BLOBD_MOUNT, BLOBD_DELETE,
    BLOBD_PUT_MANIFEST, BLOBD_GET_MANIFEST, BLOBD_DELETE_MANIFEST, BLOBD_LEASE, BLOBD_READ, BLOBD_GIVE_BACK,
    BLOBD_SWEEP, BLOBD_STAT = 17, BLOBD_STAT_MANIFEST, BLOBD_FREE_SLOTS, BLOBD_USAGE, BLOBD_FETCH,
    BLOBD_REMOVE_REPO, BLOBD_SLOT_USE, BLOBD_REPO_COUNT, BLOBD_SYNC_COUNT, BLOBD_LOCATE
};

/* The status of a reply: 0, the number of an error of the store, BLOBD_UNREADABLE (the bytes
 * lie in a file that has others), BLOBD_NO_LEASE, BLOBD_NO_COMMAND, or BLOBD_LOST if the
 * connection has failed. */
enum blobd_status {
    BLOBD_OK = 0, BLOBD_NAME_INVALID, BLOBD_DIGEST_INVALID, BLOBD_NAME_UNKNOWN, BLOBD_UPLOAD_UNKNOWN,
    BLOBD_SIZE_INVALID, BLOBD_RANGE_INVALID, BLOBD_BLOB_UNKNOWN, BLOBD_MANIFEST_INVALID, BLOBD_MANIFEST_UNKNOWN,
    BLOBD_MANIFEST_BLOB_UNKNOWN, BLOBD_QUOTA, BLOBD_REFERENCED, BLOBD_STORE_FULL, BLOBD_TOO_MANY_READERS,
    BLOBD_LIMIT_REACHED, BLOBD_WEIGHT_SPENT, BLOBD_MEMORY, BLOBD_BUSY, BLOBD_REPO_IN_USE,
    BLOBD_UNREADABLE = 253, BLOBD_NO_LEASE, BLOBD_NO_COMMAND, BLOBD_LOST = -1
};

/* The maximum length of a digest, in bytes. */
#define BLOBD_MAX_DIGEST 135

struct blobd_request {
    const char *repo, *digest, *source;  /* NULL if absent */
    uint32_t number;                     /* of a session or a lease */
    int ranged;                          /* whether the request has the range start to end, both included */
    uint64_t start, end;
    const void *body;
    uint32_t length;                     /* at most 4,194,305 */
};

struct blobd_reply {
    int status;
    /* The results of the command:
     *   lease   the blob's size; the number of the lease
     *   fetch   the blob's size; the number of a lease, or 0
     *   locate  the offset of the first piece; the number of the file, or 0. The body has the notes (docs/PROTOCOL.md)
     *   mount   the session that was opened, or 0
     *   sweep   the number of slots freed; the number of unlinked slots that readers held
     *   usage   the bytes that the tenant uses; its quota
     *   slots   the number of the tenant's distinct blobs; its share of the slots (BLOBD_SLOT_USE)
     *   repos   the number of the tenant's repositories (BLOBD_REPO_COUNT)
     *   syncs   the number of syncs of the log since the program started (BLOBD_SYNC_COUNT)
     *   others  a session, a length or a size */
    uint64_t first, second;
    char digest[BLOBD_MAX_DIGEST + 1];   /* of a manifest, or of the blob that it lacks */
    uint64_t body;                       /* the length of the body, to read by blobd_body */
};

/* Starts `program` with `connections` connections, and greets it on each. Returns 0 or an errno. */
int blobd_open(const char *program, uint32_t slots, uint64_t max_blob, const char *const *tenants, size_t count,
               size_t connections, blobd **store);

/* Returns the connection with this number, from 0 on, or NULL if there is none. */
blobd_connection *blobd_at(blobd *store, size_t number);

/* Closes the connections, and waits for the process. Returns its exit status. */
int blobd_close(blobd *store);

/* Makes a call. Returns reply->status. After BLOBD_LOST the connection must not be used again. */
int blobd_call(blobd_connection *connection, enum blobd_command command, const struct blobd_request *request,
               struct blobd_reply *reply);

/* Reads `length` bytes of the last reply's body. Returns 0 or BLOBD_LOST. The body has to be read to its end before the next
 * call. */
int blobd_body(blobd_connection *connection, void *bytes, size_t length);
#endif
