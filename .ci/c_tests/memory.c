/* Memory of the malloc that the program runs with: what it takes of the system, and what it gives back. The argument `figures` prints the
 * resident memory, in MB, after calloc of 512 MB, after its free, and after growing to 512 MB by realloc. */
#define _GNU_SOURCE
#include "want.h"
#include "rlsf.h"
#include <errno.h>
#include <malloc.h>
#include <stdint.h>
#include <string.h>
#include <sys/mman.h>
#include <sys/resource.h>

#define MB ((size_t)1 << 20)

static void large_payloads_go_back(int figures) {
    size_t before = resident(), zeroed, freed;
    char *payload = calloc(512, MB);
    WANT(payload[0] | payload[512 * MB - 1], 0);
    zeroed = resident() - before;
    if (!figures) memset(payload, 1, 100 * MB);
    free(payload);
    freed = resident() - before;
    payload = malloc(MB);
    payload[0] = 5;
    for (size_t len = 2; len <= 512; len += 2) {
        payload = realloc(payload, len * MB);
        payload[len * MB - 1] = 7;
    }
    if (figures) {
        printf("calloc of 512 MB: %zu MB, freed: %zu MB, grown to 512 MB: %zu MB\n", zeroed, freed, resident() - before);
        exit(0);
    }
    WANT(payload[0], 5);
    WANT(payload[4 * MB - 1], 7);
    WANT(zeroed <= 1, 1);
    WANT(freed <= 1, 1);
    WANT(resident() <= before + 3, 1);
    free(payload);
    WANT(resident() <= before + 1, 1);
}

/* A payload keeps its bytes, which are others each time, while it changes between the heap and a mapping. */
static void bytes_are_kept(void) {
    static const size_t sizes[] = {1000, 3 * MB, 5 * MB, 2 * MB, 500, 900000, 2000000, 100, 1 << 20, (1 << 20) - 1};
    unsigned char *payload = malloc(100);
    for (size_t i = 0; i < 100; i++) payload[i] = (unsigned char)(i * 3);
    for (size_t n = 0; n < sizeof sizes / sizeof *sizes; n++) {
        payload = realloc(payload, sizes[n]);
        WANT((size_t)payload % 16, 0);
        WANT(malloc_usable_size(payload) >= sizes[n], 1);
        for (size_t i = 0; i < 100; i++) WANT(payload[i], (unsigned char)(i * 3 + n));
        for (size_t i = 0; i < 100; i++) payload[i] = (unsigned char)(i * 3 + n + 1);
        memset(payload + 100, 0xee, sizes[n] - 100);
    }
    free(payload);
}

/* Every payload has its alignment and its bytes, and doesn't overlap the others. */
static void payloads_fit(void) {
    static const size_t sizes[] = {0, 1, 5000, MB - 1, MB, MB + 1, 3 * MB + 5};
    unsigned char *payloads[7][24];
    for (size_t n = 0; n < 7; n++)
        for (size_t k = 4; k < 24; k++) {
            unsigned char *payload = payloads[n][k] = aligned_alloc((size_t)1 << k, sizes[n]);
            WANT(payload != NULL, 1);
            WANT((size_t)payload % ((size_t)1 << k), 0);
            WANT(malloc_usable_size(payload) >= sizes[n], 1);
            memset(payload, (int)(n * 24 + k), sizes[n]);
        }
    for (size_t n = 0; n < 7; n++)
        for (size_t k = 4; k < 24; k++) {
            unsigned char *payload = payloads[n][k];
            for (size_t i = 0; i < sizes[n]; i += 997) WANT(payload[i], (unsigned char)(n * 24 + k));
            payload = payloads[n][k] = realloc(payload, 2 * sizes[n] + 1);
            if (sizes[n]) WANT(payload[sizes[n] - 1], (unsigned char)(n * 24 + k));
            free(payload);
        }
}

/* More small payloads than one step has room for; and those of calloc are zeros where others were freed. */
static void heap_grows(void) {
    static unsigned char *payloads[3000];
    for (size_t round = 0; round < 2; round++)
        for (size_t n = 0; n < 3000; n++) {
            payloads[n] = round ? calloc(3, 30000) : malloc(90000);
            WANT(payloads[n] != NULL, 1);
            WANT(payloads[n][0] & round, 0);
            WANT(payloads[n][89999] & round, 0);
            memset(payloads[n], 0xff, 90000);
            if (n % 3 == 0 || round) free(payloads[n]);
        }
}

/* What small payloads took goes back by malloc_trim, unless one of them lives. */
static void heap_shrinks(void) {
    static char *payloads[3000];
    size_t before = resident();
    for (size_t n = 0; n < 3000; n++) payloads[n] = memset(malloc(90000), 1, 90000);
    WANT(resident() >= before + 200, 1);
    for (size_t n = 0; n < 3000; n++)
        if (n != 1500) free(payloads[n]);
    malloc_trim(0);
    WANT(resident() <= before + 70, 1);
    for (size_t n = 0; n < 90000; n += 1000) WANT(payloads[1500][n], 1);
    free(payloads[1500]);
    malloc_trim(0);
    free(calloc(1, 90000));
}

/* The bytes of all blocks with payloads in them, and of the segments of single ones. */
static size_t used(void) {
    struct mallinfo2 found = mallinfo2();
    return found.uordblks + found.hblkhd;
}

/* An alignment is kept where the heap has to grow, and by the calls for pages. */
static void alignments_in_new_memory(void) {
    static void *payloads[400];
    size_t page = (size_t)sysconf(_SC_PAGESIZE);
    for (size_t align = 32; align <= MB; align *= 8) {
        for (size_t n = 0; n < 400; n++) {
            payloads[n] = aligned_alloc(align, 40000);
            WANT(payloads[n] != NULL, 1);
            WANT((size_t)payloads[n] % align, 0);
        }
        for (size_t n = 0; n < 400; n++) free(payloads[n]);
    }
    for (size_t size = 1; size < 3 * MB; size = size * 3 + 5) {
        char *whole = pvalloc(size), *some = valloc(size);
        WANT((size_t)whole % page, 0);
        WANT((size_t)some % page, 0);
        WANT(malloc_usable_size(whole) >= (size + page - 1) / page * page, 1);
        WANT(malloc_usable_size(some) >= size, 1);
        memset(whole, 1, (size + page - 1) / page * page);
        free(whole);
        free(some);
    }
}

/* The usable bytes are those that were asked for and less than 32 more, or up to the end of the last page. */
static void usable_sizes(void) {
    size_t page = (size_t)sysconf(_SC_PAGESIZE);
    for (size_t size = 16; size < MB; size = size * 9 / 8) {
        char *payload = malloc(size);
        WANT(malloc_usable_size(payload) - size < 32, 1);
        memset(payload, 1, malloc_usable_size(payload));
        free(payload);
    }
    for (size_t align = 16; align <= 256 * MB; align *= 4) {
        char *payload = aligned_alloc(align, 2 * MB);
        WANT((size_t)payload % align, 0);
        WANT(malloc_usable_size(payload) - 2 * MB < page, 1);
        WANT((size_t)(payload + malloc_usable_size(payload)) % page, 0);
        memset(payload, 1, malloc_usable_size(payload));
        free(payload);
    }
}

/* What malloc's figures say is the same in each call: of a payload with a segment of its own, too, before and after its size changes. */
static void figures_agree(void) {
    char text[1000] = {0}, wanted[1000];
    FILE *to = fmemopen(text, sizeof text, "w");
    size_t heaps, left, singles = mallinfo2().hblks, bytes = mallinfo2().hblkhd, page = (size_t)sysconf(_SC_PAGESIZE);
    char *payload = realloc(malloc(2 * MB), 5 * MB);
    WANT(mallinfo2().hblks, singles + 1);
    WANT(mallinfo2().hblkhd, bytes + 5 * MB + page);
    WANT(malloc_info(1, to), EINVAL);
    WANT(malloc_info(0, to), 0); /* the stream allocates */
    rewind(to);
    WANT(malloc_info(0, to), 0);
    struct mallinfo2 found = mallinfo2();
#pragma GCC diagnostic ignored "-Wdeprecated-declarations"
    struct mallinfo also = mallinfo();
    fflush(to);
    WANT(sscanf(text, "%*[^\n]\n<heaps count=\"%zu\" left=\"%zu\"/>", &heaps, &left), 2);
    snprintf(wanted, sizeof wanted, "<malloc version=\"rlsf " RLSF_VERSION "\">\n<heaps count=\"%zu\" left=\"%zu\"/>\n<segments count=\"%zu\" size=\"%zu\" "
        "used=\"%zu\" empty=\"%zu\"/>\n<total type=\"mmap\" count=\"%zu\" size=\"%zu\"/>\n<system type=\"current\" size=\"%zu\"/>\n</malloc>\n",
        heaps, left, found.ordblks, found.arena, found.uordblks, found.keepcost, found.hblks, found.hblkhd, found.arena + found.hblkhd);
    WANT(strcmp(text, wanted), 0);
    WANT(found.fordblks, found.arena - found.uordblks);
    WANT(also.arena == (int)found.arena && also.ordblks == (int)found.ordblks && also.hblks == (int)found.hblks && also.hblkhd == (int)found.hblkhd, 1);
    WANT(also.uordblks == (int)found.uordblks && also.fordblks == (int)found.fordblks && also.keepcost == (int)found.keepcost, 1);
    fclose(to);
    free(payload);
    WANT(mallinfo2().hblks, singles);
    WANT(mallinfo2().hblkhd, bytes);
    WANT(mallopt(M_MMAP_THRESHOLD, 1 << 20), 0);
}

/* realloc of no bytes frees. A trim says whether there was something to return. */
static void nothing_is_lost(void) {
    size_t before = used();
    for (size_t n = 0; n < 1000; n++) WANT(realloc(malloc(n * n), 0) == NULL, 1);
    WANT(used(), before);
    malloc_trim(0);
    WANT(malloc_trim(0), 0);
    char *first = malloc(300000), *second = malloc(100);
    memset(first, 1, 300000);
    free(first);
    WANT(malloc_trim(0), 1);
    WANT(malloc_trim(0), 0);
    free(second);
    WANT(used(), before);
}

/* What 1 GiB of small payloads took goes back by itself, but for a segment of 32 MiB. */
static void small_payloads_go_back(void) {
    enum { COUNT = 1073742 };
    static char *payloads[COUNT];
    size_t before = resident(), held = mallinfo2().arena;
    memset(payloads, 1, sizeof payloads);
    before = resident();
    for (size_t n = 0; n < COUNT; n++) payloads[n] = memset(malloc(1000), 1, 1000);
    WANT(resident() >= before + 1024, 1);
    for (size_t n = 0; n < COUNT; n++) free(payloads[n]);
    WANT(resident() <= before + 33, 1);
    WANT(mallinfo2().arena <= held + 32 * MB, 1);
}

/* A segment's length goes with what the heap has, not with what it had. */
static void segments_stay_short(void) {
    static char *payloads[12];
    malloc_trim(0);
    size_t held = mallinfo2().arena;
    for (size_t round = 0; round < 50; round++) {
        for (size_t n = 0; n < 12; n++) payloads[n] = malloc(900000);
        for (size_t n = 0; n < 12; n++) free(payloads[n]);
    }
    WANT(mallinfo2().arena <= held + 2 * MB, 1);
}

/* The addresses of this process, in pages. */
static size_t address_pages(void) {
    unsigned long pages;
    FILE *file = fopen("/proc/self/statm", "r");
    WANT(file != NULL && fscanf(file, "%lu", &pages), 1);
    fclose(file);
    return pages;
}

/* Where the next places are taken, a payload of its own gets no more addresses than it needs, and loses none. It moves without a copy. */
static void places_are_taken(void) {
    enum { COUNT = 20 };
    char *payloads[COUNT], *first = malloc(60 * MB), *taken;
    size_t before, page = (size_t)sysconf(_SC_PAGESIZE), len = (size_t)64 << 30;
    taken = mmap(first - (size_t)first % (64 * MB) + 64 * MB, len, PROT_NONE, MAP_PRIVATE | MAP_ANONYMOUS | MAP_NORESERVE | MAP_FIXED_NOREPLACE, -1, 0);
    WANT(taken != MAP_FAILED, 1);
    before = address_pages();
    for (size_t n = 0; n < COUNT; n++) payloads[n] = malloc(MB);
    WANT(address_pages() - before, COUNT * (MB / page + 1));
    for (size_t n = 0; n < COUNT; n++) free(payloads[n]);
    WANT(address_pages(), before);
    size_t resident_before = resident();
    first[0] = 5, first[60 * MB - 1] = 6;
    first = realloc(first, 1024 * MB);
    WANT(first != NULL && first[0] == 5 && first[60 * MB - 1] == 6, 1);
    first[1024 * MB - 1] = 7;
    WANT(resident() <= resident_before + 1, 1);
    WANT(munmap(taken, len), 0);
    free(first);
    WANT(address_pages(), before - 60 * MB / page - 1 - len / page);
}

/* Where the system refuses to make a payload longer, no address is lost. */
static void growth_is_refused(void) {
    struct rlimit before, none;
    char *payload = memset(malloc(3 * MB), 7, 3 * MB);
    size_t pages = address_pages();
    WANT(getrlimit(RLIMIT_DATA, &before), 0);
    none = (struct rlimit){1, before.rlim_max};
    WANT(setrlimit(RLIMIT_DATA, &none), 0);
    WANT(realloc(payload, 64 * MB) == NULL, 1);
    WANT(setrlimit(RLIMIT_DATA, &before), 0);
    WANT(address_pages(), pages);
    WANT(payload[3 * MB - 1], 7);
    free(payload);
}

static void limit_addresses(size_t more) {
    struct rlimit limit = {address_pages() * (size_t)sysconf(_SC_PAGESIZE) + more, RLIM_INFINITY};
    WANT(setrlimit(RLIMIT_AS, &limit), 0);
}

/* Where the system has no memory left, a large payload is placed in the heap, and a single one is made shorter where it lies. */
static void under_a_limit(void) {
    static char *payloads[200];
    char *single = memset(malloc(3 * MB), 7, 3 * MB), *other = memset(malloc(3 * MB), 8, 3 * MB);
    for (size_t n = 0; n < 200; n++) payloads[n] = malloc(n % 5 == 0 ? 100 : 900000);
    for (size_t n = 0; n < 200; n++)
        if (n % 5) free(payloads[n]);
    limit_addresses(0);
    char *large = malloc(2 * MB);
    WANT(large != NULL, 1);
    memset(large, 1, 2 * MB);
    WANT((large = realloc(large, 2 * MB + 100000)) != NULL, 1);
    WANT(large[2 * MB - 1], 1);
    WANT(single[3 * MB - 1], 7);
    while (malloc(200000)) continue;
    other = realloc(other, 200000);
    WANT(other != NULL && other[199999] == 8, 1);
    WANT(realloc(single, 30 * MB) == NULL, 1);
    WANT(single[3 * MB - 1], 7);
}

int main(int count, char **words) {
    large_payloads_go_back(count > 1 && !strcmp(words[1], "figures"));
    small_payloads_go_back();
    bytes_are_kept();
    payloads_fit();
    heap_shrinks();
    heap_grows();
    alignments_in_new_memory();
    usable_sizes();
    figures_agree();
    nothing_is_lost();
    segments_stay_short();
    places_are_taken();
    growth_is_refused();
    under_a_limit();
    return 0;
}
