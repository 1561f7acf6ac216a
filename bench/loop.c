/* The calls of the system that `roombox box` makes, in the same order, and nothing else: bench/boxes.py measures the box beside it. */
#define _GNU_SOURCE
#include <dirent.h>
#include <fcntl.h>
#include <stdio.h>
#include <stdlib.h>
#include <string.h>
#include <sys/stat.h>
#include <unistd.h>

static char *names[1 << 20];
static char octets[8192];

static void must(int holds, const char *call) {
    if (!holds) {
        perror(call);
        exit(1);
    }
}

static int compared(const void *one, const void *other) {
    return strcmp(*(char *const *)one, *(char *const *)other);
}

static int listed(const char *folder) {
    int count = 0;
    struct dirent *entry;
    DIR *open = opendir(folder);
    must(open != NULL, "opendir");
    while ((entry = readdir(open)) != NULL)
        if (entry->d_name[0] != '.')
            names[count++] = strdup(entry->d_name);
    closedir(open);
    return count;
}

/* loop INBOX OUTBOX LENGTH: for each file of the inbox one of so many octets in the outbox */
int main(int count, char **words) {
    char from[4096], to[4096], temporary[4096];
    size_t length = (size_t)atol(words[3]);
    snprintf(temporary, sizeof temporary, "%s/.temporary", words[2]);
    int folder = open(words[2], O_RDONLY);
    must(folder >= 0 && fsync(folder) == 0, "fsync of the folder");
    int files = listed(words[1]);
    qsort(names, (size_t)files, sizeof *names, compared);
    for (int number = 0; number < files; number++) {
        struct stat found;
        snprintf(from, sizeof from, "%s/%s", words[1], names[number]);
        must(stat(from, &found) == 0, "stat");
        int message = open(from, O_RDONLY);
        must(message >= 0, "open");
        while (read(message, octets, sizeof octets) > 0)
            ;
        close(message);
        unlink(temporary);
        int answer = open(temporary, O_RDWR | O_CREAT | O_EXCL, 0666);
        must(answer >= 0, "create");
        must(write(answer, octets, length) == (ssize_t)length, "write");
        must(fsync(answer) == 0, "fsync");
        snprintf(to, sizeof to, "%s/%.25s.out", words[2], names[number]);
        must(link(temporary, to) == 0, "link");
        must(unlink(temporary) == 0, "unlink");
        close(answer);
        must(fsync(folder) == 0, "fsync of the folder");
    }
    return count != 4;
}
