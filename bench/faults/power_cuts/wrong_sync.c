/* Makes the syncs of the program that it is loaded into wrong, so that a script that cuts the power can be seen to fail.
 *
 * LD_PRELOAD loads it. WRONG_SYNC is `none`, and fsync and fdatasync do nothing; or `late`, and they answer first and sync
 * a moment later.
 */
#define _GNU_SOURCE
#include <dlfcn.h>
#include <pthread.h>
#include <stdlib.h>
#include <string.h>
#include <unistd.h>

#define LATE_FOR 30000 /* microseconds */

static void *sync_late(void *file) {
    int (*sync)(int) = (int (*)(int))dlsym(RTLD_NEXT, "fsync");
    usleep(LATE_FOR);
    sync((int)(long)file);
    close((int)(long)file);
    return NULL;
}

static int answer(int file) {
    const char *how = getenv("WRONG_SYNC");
    pthread_t thread;
    int copy;
    if (how && strcmp(how, "late") == 0 && (copy = dup(file)) >= 0) {
        if (pthread_create(&thread, NULL, sync_late, (void *)(long)copy) != 0) abort();
        pthread_detach(thread);
    }
    return 0;
}

int fsync(int file) { return answer(file); }
int fdatasync(int file) { return answer(file); }
