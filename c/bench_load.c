/* The host for processes, plain C outside of what is proved: partitions that are shared objects.
 * Each start of one loads a copy of the file, which has data of its own, as the file has them. */
#include "bench_host.h"

#include <dlfcn.h>
#include <errno.h>
#include <stdio.h>
#include <stdlib.h>
#include <string.h>
#include <unistd.h>

static bool expects(bool is_so, const char *what, const char *why) {
    char line[512];
    snprintf(line, sizeof line, "%s: %s", what, why);
    return bench_expects(is_so, "bench_load_partition", line);
}

/* Copies a file to one with a new name, which is written to the place; false if the errno says why
 * not. */
static bool copy_file(const char *file, char *place) {
    static char bytes[65536];
    FILE *from = fopen(file, "rb");
    const int number = from == NULL ? -1 : mkstemp(place);
    FILE *to = number < 0 ? NULL : fdopen(number, "wb");
    bool is_copied = to != NULL;
    for (size_t length = 1; is_copied && length > 0;) {
        length = fread(bytes, 1, sizeof bytes, from);
        is_copied = !ferror(from) && fwrite(bytes, 1, length, to) == length && fflush(to) == 0;
    }
    const int why = errno;
    if (number >= 0 && !is_copied) {
        unlink(place);
    }
    if (to != NULL) {
        fclose(to);
    }
    if (from != NULL) {
        fclose(from);
    }
    errno = why;
    return is_copied;
}

static void close_library(struct bench_host_partition *partition) {
    if (partition->library != NULL) {
        dlclose(partition->library);
    }
    partition->library = NULL;
}

bool bench_reload(struct bench_host_partition *partition) {
    const char *folder = getenv("TMPDIR");
    char place[512];
    if (partition->file == NULL) {
        return true;
    }
    close_library(partition);
    snprintf(place, sizeof place, "%s/dekarino-XXXXXX",
             folder != NULL && folder[0] == '/' ? folder : "/tmp");
    if (!copy_file(partition->file, place)) {
        return expects(false, partition->file, strerror(errno));
    }
    partition->library = dlopen(place, RTLD_NOW | RTLD_LOCAL);
    unlink(place);
    if (partition->library == NULL) {
        return expects(false, partition->file, dlerror());
    }
    /* (POSIX has a function's address as an object's; a cast between both is no ISO C) */
    *(void **)&partition->how.entry = dlsym(partition->library, partition->entry);
    return expects(partition->how.entry != NULL, partition->file, "it has no such entry");
}

void bench_unload(struct bench_host_partition *partition) {
    close_library(partition);
    free(partition->file);
    free(partition->entry);
}

bool bench_load_partition(const char *file, const char *entry, uint32_t partition,
                          const struct bench_partition *how) {
    if (!expects(bench_self == NULL && file != NULL && entry != NULL && how != NULL,
                 file == NULL ? "no file" : file,
                 "called by a process, or without an entry or windows")) {
        return false;
    }
    struct bench_host_partition loaded = {.file = strdup(file), .entry = strdup(entry)};
    struct bench_partition with_entry = *how;
    const bool is_loaded = loaded.file != NULL && loaded.entry != NULL && bench_reload(&loaded);
    with_entry.entry = loaded.how.entry;
    if (!is_loaded || !bench_add_partition(partition, &with_entry)) {
        bench_unload(&loaded);
        return false;
    }
    bench_host.partition[partition].file = loaded.file;
    bench_host.partition[partition].entry = loaded.entry;
    bench_host.partition[partition].library = loaded.library;
    return true;
}
