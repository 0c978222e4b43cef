/* Calls the library as few callers do, on each FILE, and ends with status 1 and a line if something is not as
   plovercasket.h says. It is linked with `--wrap` for malloc, realloc and free, of which calls are counted.

   callers threads COUNT KIB FILE ..   so many threads with a stack of so many KiB, all at once, each with every FILE
   callers rooms FILE ..               each room that is too small by some bytes, and those that are not
   callers memory FILE ..              each request for memory refused in turn, and all from there on */
#include <plovercasket.h>
#include <pthread.h>
#include <stdarg.h>
#include <stdio.h>
#include <stdlib.h>
#include <string.h>

enum { MOST_FILES = 4096, MARGIN = 64, FILL = 0x5a };

/* A torrent, what is told of it, and by which answers. */
struct torrent {
    char *place;
    uint8_t *bytes, *report, link[160];
    size_t length;
    plover_outcome outcome, linked;
    plover_hashes hashes;
    uint32_t answer;
};

static struct torrent torrents[MOST_FILES];
static int count;

static void fail(const struct torrent *of, const char *what, ...) {
    va_list rest;
    va_start(rest, what);
    printf("%s: ", of->place);
    vprintf(what, rest);
    printf("\n");
    exit(1);
}

/* What the library asks of the C library: how often, of what is kept, and from which request on all or one are refused.
   Only in `memory`, which has one thread, is anything refused. */
void *__real_malloc(size_t size);
void *__real_realloc(void *block, size_t size);
void __real_free(void *block);
static long asked, kept, refused_at, all_later;

static int is_refused(void) {
    if (refused_at == 0) return 0;
    asked++;
    return asked == refused_at || (all_later && asked > refused_at);
}

static void keep(long more) {
    __atomic_fetch_add(&kept, more, __ATOMIC_SEQ_CST);
}

void *__wrap_malloc(size_t size) {
    void *block = is_refused() ? NULL : __real_malloc(size);
    keep(block != NULL);
    return block;
}

void *__wrap_realloc(void *block, size_t size) {
    void *moved = is_refused() ? NULL : __real_realloc(block, size);
    keep(block == NULL && moved != NULL);
    return moved;
}

void __wrap_free(void *block) {
    keep(-(block != NULL));
    __real_free(block);
}

static int same(const void *one, const void *other, size_t length) {
    return memcmp(one, other, length) == 0;
}

static int is_filled(const uint8_t *bytes, size_t length) {
    for (size_t i = 0; i < length; i++)
        if (bytes[i] != FILL) return 0;
    return 1;
}

static int same_outcome(const plover_outcome *one, const plover_outcome *other) {
    return one->length == other->length && one->offset == other->offset && one->fault == other->fault;
}

static void *space(size_t size) {
    void *block = __real_malloc(size);
    if (block == NULL) exit(4);
    return memset(block, FILL, size);
}

/* Reads a torrent, and has it told with ample room. */
static void read_torrent(char *place) {
    struct torrent *to = &torrents[count++];
    FILE *file = fopen(place, "rb");
    if (file == NULL || fseek(file, 0, SEEK_END) != 0) exit(3);
    to->place = place;
    to->length = (size_t)ftell(file);
    rewind(file);
    to->bytes = space(to->length + 1);
    if (fread(to->bytes, 1, to->length, file) != to->length) exit(3);
    fclose(file);
    size_t room = 8 * to->length + 4096;
    to->report = space(room);
    to->answer = plover_check(to->bytes, to->length, to->report, room, &to->outcome);
    if (to->answer == PLOVER_NO_ROOM) {
        room = to->outcome.length;
        __real_free(to->report);
        to->report = space(room);
        to->answer = plover_check(to->bytes, to->length, to->report, room, &to->outcome);
    }
    if (plover_magnet(to->bytes, to->length, to->link, sizeof to->link, &to->linked) != to->answer)
        fail(to, "magnet answers otherwise than check");
    memset(&to->hashes, 0, sizeof to->hashes);
    plover_outcome outcome;
    if (plover_info_hashes(to->bytes, to->length, &to->hashes, &outcome) != to->answer)
        fail(to, "info_hashes answers otherwise than check");
    if (outcome.length != 0 || outcome.offset != to->outcome.offset || outcome.fault != to->outcome.fault)
        fail(to, "info_hashes tells otherwise than check");
}

/* Has a torrent told again, and compares. */
static void expect_same(const struct torrent *of) {
    plover_outcome outcome;
    plover_hashes hashes;
    uint8_t link[160];
    size_t length = of->outcome.length;
    uint8_t *report = space(length + MARGIN);
    if (plover_check(of->bytes, of->length, report, length, &outcome) != of->answer) fail(of, "another answer");
    if (!same_outcome(&outcome, &of->outcome)) fail(of, "another outcome");
    if (!same(report, of->report, length) || !is_filled(report + length, MARGIN)) fail(of, "another report");
    if (plover_magnet(of->bytes, of->length, link, sizeof link, &outcome) != of->answer ||
        !same_outcome(&outcome, &of->linked) || !same(link, of->link, outcome.length))
        fail(of, "another link");
    memset(&hashes, 0, sizeof hashes);
    if (plover_info_hashes(of->bytes, of->length, &hashes, &outcome) != of->answer ||
        !same(&hashes, &of->hashes, sizeof hashes))
        fail(of, "other hashes");
    __real_free(report);
}

static pthread_barrier_t together;

static void *caller(void *unused) {
    pthread_barrier_wait(&together);
    for (int i = 0; i < count; i++) expect_same(&torrents[i]);
    return unused;
}

static void by_threads(unsigned threads, size_t stack) {
    pthread_t *ids = space(threads * sizeof *ids);
    pthread_attr_t small;
    pthread_attr_init(&small);
    if (pthread_attr_setstacksize(&small, stack) != 0) exit(2);
    pthread_barrier_init(&together, NULL, threads);
    for (unsigned i = 0; i < threads; i++)
        if (pthread_create(&ids[i], &small, caller, NULL) != 0) exit(4);
    for (unsigned i = 0; i < threads; i++) pthread_join(ids[i], NULL);
    __real_free(ids);
}

/* A report and a link in a room of so many bytes. */
static void in_room(const struct torrent *of, size_t room) {
    plover_outcome outcome;
    int fits = room >= of->outcome.length;
    uint8_t *report = space(room + MARGIN);
    uint32_t answer = plover_check(of->bytes, of->length, report, room, &outcome);
    if (answer != (fits ? PLOVER_OK : PLOVER_NO_ROOM)) fail(of, "answer %u for a room of %zu", answer, room);
    if (!same_outcome(&outcome, &of->outcome)) fail(of, "another outcome for a room of %zu", room);
    size_t written = fits ? of->outcome.length : 0;
    if (!same(report, of->report, written) || !is_filled(report + written, room + MARGIN - written))
        fail(of, "other bytes in a room of %zu", room);
    __real_free(report);
}

static void by_rooms(const struct torrent *of) {
    if (of->answer != PLOVER_OK) return;
    size_t length = of->outcome.length;
    size_t rooms[] = {0, 1, 2, length / 2, length - 2, length - 1, length, length + 1, length + 7};
    for (size_t i = 0; i < sizeof rooms / sizeof *rooms; i++) in_room(of, rooms[i]);
    uint8_t link[160];
    plover_outcome outcome;
    for (size_t room = 0; room <= of->linked.length; room++) {
        memset(link, FILL, sizeof link);
        uint32_t answer = plover_magnet(of->bytes, of->length, link, room, &outcome);
        size_t written = room == of->linked.length ? room : 0;
        if (answer != (written ? PLOVER_OK : PLOVER_NO_ROOM) || outcome.length != of->linked.length ||
            !same(link, of->link, written) || !is_filled(link + written, sizeof link - written))
            fail(of, "a link in a room of %zu", room);
    }
}

/* One call of each export, with a report and hashes that are filled. */
static uint32_t call(int export, const struct torrent *of, uint8_t *report, plover_hashes *hashes,
                     plover_outcome *outcome) {
    static uint8_t root[32], siblings[2][32];
    size_t room = of->outcome.length + 200;
    switch (export) {
        case 0: return plover_check(of->bytes, of->length, report, room, outcome);
        case 1: return plover_magnet(of->bytes, of->length, report, room, outcome);
        case 2: return plover_info_hashes(of->bytes, of->length, hashes, outcome);
        case 3: return plover_verify(root, 65536, 16384, 1, root, siblings[0], 2);
        default: return plover_verify_bytes(root, 65536, 16384, 1, torrents[0].report, 16384, siblings[0], 2);
    }
}

static void by_memory(const struct torrent *of) {
    size_t room = of->outcome.length + 200;
    uint8_t *report = space(room > 16384 ? room : 16384), *before = torrents[0].report;
    if (of == torrents) torrents[0].report = space(16384);
    for (int export = 0; export < 5; export++) {
        for (all_later = 0; all_later < 2; all_later++) {
            for (refused_at = 1;; refused_at++) {
                plover_outcome outcome = {0, 0, 0};
                plover_hashes hashes;
                memset(&hashes, FILL, sizeof hashes);
                memset(report, FILL, room);
                asked = 0;
                kept = 0;
                uint32_t answer = call(export, of, report, &hashes, &outcome);
                if (kept != 0) fail(of, "export %d keeps %ld blocks", export, kept);
                int was_refused = asked >= refused_at;
                if (answer == PLOVER_MEMORY && !was_refused)
                    fail(of, "export %d: memory, and none was refused", export);
                if (was_refused && answer == PLOVER_MEMORY &&
                    (outcome.length || outcome.offset || outcome.fault || !is_filled(report, room) ||
                     !is_filled((uint8_t *)&hashes, sizeof hashes)))
                    fail(of, "export %d wrote something, and answered want of memory", export);
                if (was_refused && answer != PLOVER_MEMORY && answer != of->answer && export < 3)
                    fail(of, "export %d answers %u where memory is refused", export, answer);
                if (!was_refused) break;
            }
        }
    }
    refused_at = 0;
    if (of == torrents) {
        __real_free(torrents[0].report);
        torrents[0].report = before;
    }
    __real_free(report);
}

int main(int words, char **word) {
    int first = words > 1 && strcmp(word[1], "threads") == 0 ? 4 : 2;
    for (int i = first; i < words && count < MOST_FILES; i++) read_torrent(word[i]);
    if (words <= first) return 2;
    if (first == 4) by_threads((unsigned)atoi(word[2]), (size_t)atoi(word[3]) << 10);
    for (int i = 0; i < count; i++) {
        if (strcmp(word[1], "rooms") == 0) by_rooms(&torrents[i]);
        if (strcmp(word[1], "memory") == 0) by_memory(&torrents[i]);
    }
    if (kept != 0) fail(torrents, "%ld blocks are kept", kept);
    printf("%d files\n", count);
    return 0;
}
