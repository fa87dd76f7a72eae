/* A program that can't include the header, and calls the symbols that include/mbj_symbols.c makes of its inline code. */
#include <stdint.h>
#include <stdio.h>

#ifdef __cplusplus
extern "C" {
#endif

void *mbj_alloc_mgr(void);
void mbj_free_mgr(void *manager);
void *mbj_get_next_job(void *manager);
void *mbj_submit_job(void *manager);
void *mbj_flush_job(void *manager);
uint32_t mbj_queue_size(void *manager);
const char *mbj_version_text(void);

#ifdef __cplusplus
}
#endif

/* A blank job is refused, and given back at once. */
int main(void) {
    void *manager = mbj_alloc_mgr();
    void *job = mbj_get_next_job(manager);
    int is_given = job != NULL && mbj_submit_job(manager) == job && mbj_flush_job(manager) == NULL && mbj_queue_size(manager) == 0;
    mbj_free_mgr(manager);
    printf("%s\n", mbj_version_text());
    return is_given ? 0 : 1;
}
