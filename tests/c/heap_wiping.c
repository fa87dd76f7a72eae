/* Tests include/mbj_heap_wiping.c: whatever is freed is zero. Link with that file and with -Wl,--wrap for malloc and free, which are looked
 * at here. */
#include "check.h"
#include "mbj_heap.h"

#ifdef __cplusplus
extern "C" {
#endif

/* The linker puts the first of each pair in the place of the function, which is the second. */
void *__wrap_malloc(size_t len);
void *__real_malloc(size_t len);
void __wrap_free(void *at);
void __real_free(void *at);

enum { BLOCKS = 8192 };

/* The blocks of malloc that are in use, and how many bytes were freed. */
static struct mbj_room in_use[BLOCKS];
static size_t count, freed;
static bool is_malloc_refused;

void *__wrap_malloc(size_t len) {
    if (is_malloc_refused)
        return NULL;
    CHECK(count < BLOCKS);
    in_use[count].at = (uint8_t *)__real_malloc(len);
    in_use[count].len = len;
    CHECK(in_use[count].at != NULL);
    memset(in_use[count].at, 0xaa, len);
    return in_use[count++].at;
}

void __wrap_free(void *at) {
    for (size_t i = count; i-- > 0;)
        if (in_use[i].at == at) {
            CHECK(is_all(in_use[i].at, in_use[i].len, 0));
            freed += in_use[i].len;
            in_use[i] = in_use[--count];
            break;
        }
    __real_free(at);
}

#ifdef __cplusplus
}
#endif

static void blocks_are_wiped(void) {
    static const size_t lengths[] = {0, 1, 15, 16, 17, 1000, 70000};
    for (size_t i = 0; i < sizeof lengths / sizeof *lengths; i++) {
        size_t len = lengths[i], before = freed;
        struct mbj_block block = rattle_alloc(len, 16);
        CHECK(block.is_there == 1 && (uintptr_t)block.at % 16 == 0);
        memset(block.at, 7, len);
        struct mbj_block longer = rattle_realloc(block.at, len, len + 100, 16);
        CHECK(longer.is_there == 1 && freed >= before + len && is_all((uint8_t *)longer.at, len, 7));
        memset(longer.at, 7, len + 100);
        struct mbj_block shorter = rattle_realloc(longer.at, len / 2, len / 2, 16);
        CHECK(shorter.is_there == 1 && is_all((uint8_t *)shorter.at, len / 2, 7));
        rattle_dealloc(shorter.at);
        CHECK(freed >= before + len + len + 100 + len / 2 && count == 0);
    }
}

static void a_refusal_leaves_the_block(void) {
    struct mbj_block block = rattle_alloc(100, 1);
    CHECK(block.is_there == 1);
    memset(block.at, 7, 100);
    is_malloc_refused = true;
    struct mbj_block other = rattle_alloc(1, 1), longer = rattle_realloc(block.at, 100, 200, 1);
    is_malloc_refused = false;
    CHECK(!other.is_there && other.at != NULL && !longer.is_there && longer.at != NULL && is_all((uint8_t *)block.at, 100, 7));
    CHECK(!rattle_alloc(SIZE_MAX, 1).is_there);
    rattle_dealloc(block.at);
    CHECK(count == 0);
}

/* A job's copies are wiped when what the manager keeps is freed, and all that is left with the manager. */
static void a_managers_blocks_are_wiped(void) {
    static MBJ_MGR m;
    uint8_t tag[MAC_BYTES], dst[CBC_BYTES];
    CHECK(mbj_init_mgr(&m) == MBJ_ERR_NONE && count > 0);
    size_t before = freed, of_manager = count;
    fill_mac(mbj_get_next_job(&m), mac_text, sizeof mac_text, tag);
    CHECK(finish(&m) != NULL && memcmp(tag, mac, sizeof mac) == 0);
    fill_cbc(mbj_get_next_job(&m), cbc_text, sizeof cbc_text, 0, dst);
    CHECK(finish(&m) != NULL && memcmp(dst, cbc_ciphertext, sizeof dst) == 0);
    mbj_trim(&m);
    CHECK(freed > before + sizeof mac_key + sizeof mac_text + sizeof cbc_key + sizeof cbc_text && count == of_manager);
    fill_mac(mbj_get_next_job(&m), mac_text, sizeof mac_text, tag);
    CHECK(mbj_submit_job(&m) == NULL);
    mbj_end_mgr(&m);
    CHECK(count == 0);
}

int main(void) {
    blocks_are_wiped();
    a_refusal_leaves_the_block();
    a_managers_blocks_are_wiped();
    return 0;
}
