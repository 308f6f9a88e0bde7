/* Uploads `abc` in two chunks, with a chunk at a wrong offset that fails, fetches the blob, and reads it under a lease. Then removes
 * the repository. */
#include "blobd.h"
#include <stdio.h>
#include <string.h>

#define ABC "sha256:ba7816bf8f01cfea414140de5dae2223b00361a396177a9cb410ff61f20015ad"

static struct blobd_reply reply;

static void call(blobd_connection *connection, enum blobd_command command, struct blobd_request request) {
    blobd_call(connection, command, &request, &reply);
}

int main(int count, char **arguments) {
    const char *tenants[] = {"acme=1000"};
    char bytes[4] = "";
    blobd *store;
    int error = blobd_open(count > 1 ? arguments[1] : "blobd", 64, 1 << 20, tenants, 1, 2, &store);
    if (error) {
        fprintf(stderr, "example: cannot start the store: %s\n", strerror(error));
        return 1;
    }
    blobd_connection *connection = blobd_at(store, 0), *other = blobd_at(store, 1);
    call(connection, BLOBD_START, (struct blobd_request){.repo = "acme/one"});
    uint32_t session = (uint32_t)reply.first;
    printf("start: status %d, session %u\n", reply.status, session);
    call(connection, BLOBD_APPEND, (struct blobd_request){.repo = "acme/one", .number = session, .body = "a", .length = 1});
    printf("append: status %d, received %llu\n", reply.status, (unsigned long long)reply.first);
    call(connection, BLOBD_APPEND, (struct blobd_request){.repo = "acme/one", .number = session, .ranged = 1, .start = 7, .end = 7, .body = "x", .length = 1});
    printf("append elsewhere: status %d, received %llu\n", reply.status, (unsigned long long)reply.first);
    call(connection, BLOBD_CLOSE, (struct blobd_request){.repo = "acme/one", .number = session, .digest = ABC, .body = "bc", .length = 2});
    printf("close: status %d, size %llu\n", reply.status, (unsigned long long)reply.first);
    call(other, BLOBD_FETCH, (struct blobd_request){.repo = "acme/one", .digest = ABC});
    blobd_body(other, bytes, reply.body < 3 ? reply.body : 3);
    printf("fetch: status %d, size %llu, lease %llu, %s\n", reply.status, (unsigned long long)reply.first, (unsigned long long)reply.second, bytes);
    memset(bytes, 0, sizeof bytes);
    call(other, BLOBD_LEASE, (struct blobd_request){.repo = "acme/one", .digest = ABC});
    uint32_t lease = (uint32_t)reply.second;
    printf("lease: status %d, size %llu\n", reply.status, (unsigned long long)reply.first);
    call(connection, BLOBD_DELETE, (struct blobd_request){.repo = "acme/one", .digest = ABC});
    call(connection, BLOBD_SWEEP, (struct blobd_request){0});
    printf("sweep: status %d, freed %llu, held %llu\n", reply.status, (unsigned long long)reply.first, (unsigned long long)reply.second);
    call(connection, BLOBD_READ, (struct blobd_request){.number = lease, .digest = ABC, .ranged = 1, .start = 0, .end = 2});
    blobd_body(connection, bytes, reply.body < 3 ? reply.body : 3);
    printf("read: status %d, %s\n", reply.status, bytes);
    call(other, BLOBD_GIVE_BACK, (struct blobd_request){.number = lease});
    printf("give back: status %d\n", reply.status);
    call(other, BLOBD_SWEEP, (struct blobd_request){0});
    printf("sweep: status %d, freed %llu, held %llu\n", reply.status, (unsigned long long)reply.first, (unsigned long long)reply.second);
    call(connection, BLOBD_REMOVE_REPO, (struct blobd_request){.repo = "acme/one"});
    printf("remove: status %d\n", reply.status);
    printf("exit: %d\n", blobd_close(store));
    return 0;
}
