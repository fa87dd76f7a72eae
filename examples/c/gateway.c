/* Reads a job file without session lines from standard input (docs/FORMAT.md), does its jobs by one manager, and prints the text of `mbjobs
 * run`. The statuses are those of `mbjobs run` too: 3 a failed read, 4 a failed write, 5 a bad line, 6 a file that is too long, 7 want of
 * memory. Behind a status other than 0 standard output has a prefix of the text. */
#define PROGRAM "gateway"
#include "jobfile.h"

/* Submits a job, having made room for it if there is none. */
static int submit(MBJ_MGR *manager, struct file_job *given, const struct file_job *first) {
    MBJ_JOB *job = mbj_get_next_job(manager);
    if (job == NULL) {
        print_result(mbj_flush_job(manager), first);
        job = mbj_get_next_job(manager);
    }
    *job = given->job;
    job->auth_tag_output = given->tag;
    job->user_data = given;
    MBJ_JOB *done = mbj_submit_job(manager);
    if (done != NULL)
        print_result(done, first);
    return mbj_get_errno(manager) == MBJ_ERR_NONE ? 0 : NO_MEMORY;
}

static int run(struct file *file) {
    int status = read_text(file);
    if (status == 0)
        status = read_jobs(file);
    if (status != 0)
        return status;
    MBJ_MGR *manager = mbj_alloc_mgr();
    if (manager == NULL)
        return NO_MEMORY;
    for (size_t i = 0; i < file->count && status == 0; i++)
        status = submit(manager, &file->jobs[i], file->jobs);
    MBJ_JOB *done;
    while ((done = mbj_flush_job(manager)) != NULL)
        print_result(done, file->jobs);
    mbj_free_mgr(manager);
    return status;
}

int main(void) {
    struct file file = {NULL, 0, NULL, 0, 0};
    return end_file(&file, run(&file));
}
