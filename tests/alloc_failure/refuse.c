/* Lets one allocation of a Rattle program fail: the one whose number is in the variable FAIL_ALLOC. It is linked with
   --wrap=rattle_alloc and --wrap=rattle_realloc, so it needs no headers. */
typedef __SIZE_TYPE__ size_t;

/* What the two functions return: whether there is memory, and where. */
struct block {
    size_t is_there;
    void *place;
};

struct block __real_rattle_alloc(size_t length, size_t alignment);
struct block __real_rattle_realloc(void *place, size_t length, size_t wanted, size_t alignment);
char *getenv(const char *name);

static size_t failing;
static size_t count;
static char nothing;

__attribute__((constructor)) static void begin(void) {
    const char *digit = getenv("FAIL_ALLOC");
    for (; digit && *digit >= '0' && *digit <= '9'; digit += 1)
        failing = 10 * failing + (size_t)(*digit - '0');
}

static int fails(void) {
    return __atomic_add_fetch(&count, 1, __ATOMIC_RELAXED) == failing;
}

static struct block refused(void) {
    struct block block = {0, &nothing};
    return block;
}

struct block __wrap_rattle_alloc(size_t length, size_t alignment) {
    return fails() ? refused() : __real_rattle_alloc(length, alignment);
}

struct block __wrap_rattle_realloc(void *place, size_t length, size_t wanted, size_t alignment) {
    return fails() ? refused() : __real_rattle_realloc(place, length, wanted, alignment);
}
