/* The measuring program of tests/peer/bench.
 *
 *   bench time RUNS COMMAND.. :: COMMAND.. ..   runs each command once, then each once more, and so on, RUNS times, with
 *                 standard output and error thrown away. A line for each: of its wall times in microseconds the least, the middle
 *                 one, and those at a quarter and at three quarters; and the greatest memory that a run held, in KiB. If a command's
 *                 status isn't 0: `failed`, and it isn't run again. A command may have status 1 if `!` is before it. With `*N`
 *                 before it, it is run N times in a row for one time, which is their sum divided by N. If BENCH_SAMPLES names a folder,
 *                 the times of earlier calls with the same words, and the same BENCH_OF, are kept there, and count too
 *   bench processor SECONDS RUNS COMMAND.. :: COMMAND.. ..   the same, with the time that the processor spent on the
 *                 command, its own and the system's, in place of wall time; a run that takes more than SECONDS of it has failed
 *   bench links FILE FOLDER COUNT               gives the file so many names in the folder, each ending in .hwdb
 *   bench read FILE..                           reads each file into one buffer, 64 KiB at a time
 *   bench udev LIBRARY DEVICES ROUNDS           with libudev's calls: opens the system's hardware database, looks up each line of
 *                 the file DEVICES, so many times, and prints how many properties came in all
 *   bench sd LIBRARY DEVICES ROUNDS             the same with the calls of sd-hwdb: seek and enumerate
 *   bench opens LIBRARY DEVICE COUNT            opens the system's hardware database by sd_hwdb_new, looks the device up and gives the
 *                 database back, so many times, and prints how many properties came in all */
#define _GNU_SOURCE
#include <dlfcn.h>
#include <fcntl.h>
#include <stdio.h>
#include <stdlib.h>
#include <string.h>
#include <sys/resource.h>
#include <sys/wait.h>
#include <time.h>
#include <unistd.h>

enum { MOST_COMMANDS = 8, MOST_RUNS = 1000, MOST_TIMES = 10000, PIECE = 65536 };

static void fail(const char *what) { perror(what); exit(1); }

struct bytes { char *at; size_t length; };

static struct bytes bytes_of(const char *path) {
    struct bytes bytes = {0};
    size_t room = 0;
    int file = open(path, O_RDONLY);
    if (file < 0) fail(path);
    for (;;) {
        if (room - bytes.length < PIECE) {
            room = room ? 2 * room : 2 * PIECE;
            bytes.at = realloc(bytes.at, room);
            if (!bytes.at) fail("realloc");
        }
        ssize_t count = read(file, bytes.at + bytes.length, PIECE);
        if (count < 0) fail(path);
        if (count == 0) break;
        bytes.length += count;
    }
    close(file);
    bytes.at[bytes.length] = 0;
    return bytes;
}

/* The same, with byte 0 after each line. */
static struct bytes lines_of(const char *path) {
    struct bytes text = bytes_of(path);
    for (size_t i = 0; i < text.length; i++)
        if (text.at[i] == '\n') text.at[i] = 0;
    return text;
}

struct command { char **words; long times[MOST_TIMES]; int count; long memory; int most_status; int in_a_row; int has_failed; };
static struct command commands[MOST_COMMANDS];

static int most_seconds;

static long microseconds(struct timeval time) { return time.tv_sec * 1000000 + time.tv_usec; }

/* One run of the command. Returns how long it took. */
static long run_once(struct command *command) {
    struct timespec begin, end;
    struct rusage used;
    int status;
    clock_gettime(CLOCK_MONOTONIC, &begin);
    pid_t child = fork();
    if (child < 0) fail("fork");
    if (child == 0) {
        int nowhere = open("/dev/null", O_RDWR);
        struct rlimit most = {most_seconds, most_seconds}, no_core = {0, 0};
        if (most_seconds) setrlimit(RLIMIT_CPU, &most), setrlimit(RLIMIT_CORE, &no_core);
        dup2(nowhere, 0), dup2(nowhere, 1), dup2(nowhere, 2);
        execv(command->words[0], command->words);
        _exit(127);
    }
    if (wait4(child, &status, 0, &used) != child) fail("wait4");
    clock_gettime(CLOCK_MONOTONIC, &end);
    if (used.ru_maxrss > command->memory) command->memory = used.ru_maxrss;
    if (!WIFEXITED(status) || WEXITSTATUS(status) > command->most_status) command->has_failed = 1;
    if (most_seconds) return microseconds(used.ru_utime) + microseconds(used.ru_stime);
    return (end.tv_sec - begin.tv_sec) * 1000000 + (end.tv_nsec - begin.tv_nsec) / 1000;
}

static long run_in_a_row(struct command *command) {
    long sum = 0;
    for (int i = 0; i < command->in_a_row; i++) sum += run_once(command);
    return sum / command->in_a_row;
}

static int by_time(const void *a, const void *b) { return (*(long *)a > *(long *)b) - (*(long *)a < *(long *)b); }

/* Where the times of these words are kept: a name made of all of them. */
static const char *kept_at(char **words) {
    static char path[4096];
    unsigned long sum = 14695981039346656037UL ^ (unsigned long)most_seconds;
    const char *folder = getenv("BENCH_SAMPLES"), *of = getenv("BENCH_OF");
    if (!folder) return NULL;
    for (const char *word = of ? of : ""; word; word = *words++) {
        const char *at = word;
        do sum = (sum ^ (unsigned char)*at) * 1099511628211UL;
        while (*at++);
    }
    snprintf(path, sizeof path, "%s/%016lx", folder, sum);
    return path;
}

/* A line of that file: a command's number, a time and a memory. */
static void add(int i, long time, long memory) {
    struct command *command = &commands[i];
    if (memory > command->memory) command->memory = memory;
    if (command->count < MOST_TIMES) command->times[command->count++] = time;
}

static int time_all(int runs, char **words) {
    int count = 0;
    const char *path = kept_at(words);
    if (runs < 1 || runs > MOST_RUNS) return 1;
    while (*words && count < MOST_COMMANDS) {
        struct command *command = &commands[count++];
        command->in_a_row = **words == '*' ? atoi(*words++ + 1) : 1;
        if (command->in_a_row < 1 || !*words) return 1;
        if (!strcmp(*words, "!")) command->most_status = 1, words++;
        command->words = words;
        while (*words && strcmp(*words, "::")) words++;
        if (*words) *words++ = 0;
    }
    FILE *kept = path ? fopen(path, "a+") : NULL;
    int i;
    long time, memory;
    if (kept) rewind(kept);
    while (kept && fscanf(kept, "%d %ld %ld", &i, &time, &memory) == 3)
        if (i >= 0 && i < count) add(i, time, memory);
    for (int run = 0; run < runs; run++)
        for (i = 0; i < count; i++) {
            if (commands[i].has_failed) continue;
            time = run_in_a_row(&commands[i]);
            if (commands[i].has_failed) continue;
            add(i, time, commands[i].memory);
            if (kept) fprintf(kept, "%d %ld %ld\n", i, time, commands[i].memory);
        }
    if (kept && fclose(kept)) fail(path);
    for (i = 0; i < count; i++) {
        struct command *command = &commands[i];
        qsort(command->times, command->count, sizeof(long), by_time);
        if (command->has_failed || !command->count) printf("failed\n");
        else printf("%ld %ld %ld %ld %ld\n", command->times[0], command->times[command->count / 2],
                    command->times[command->count / 4], command->times[command->count * 3 / 4], command->memory);
    }
    return 0;
}

typedef void *new_udev(void);
typedef void *new_hwdb(void *);
typedef void *properties_of(void *, const char *, unsigned);
typedef void *next_of(void *);

static void *named(void *library, const char *name) {
    void *found = dlsym(library, name);
    if (!found) fail(name);
    return found;
}

static int look_up(const char *path, const char *devices, long rounds) {
    void *library = dlopen(path, RTLD_NOW);
    if (!library) return fprintf(stderr, "%s\n", dlerror()), 1;
    properties_of *properties = (properties_of *)named(library, "udev_hwdb_get_properties_list_entry");
    next_of *next = (next_of *)named(library, "udev_list_entry_get_next");
    struct bytes text = lines_of(devices);
    /* Ours has the calls on the database alone, and libudev.so.1 looks at no argument there. */
    new_udev *new = (new_udev *)dlsym(library, "udev_new");
    void *hwdb = ((new_hwdb *)named(library, "udev_hwdb_new"))(new ? new() : NULL);
    if (!hwdb) return fprintf(stderr, "no hardware database\n"), 1;
    unsigned long found = 0;
    for (long round = 0; round < rounds; round++)
        for (char *device = text.at; device < text.at + text.length; device += strlen(device) + 1)
            for (void *entry = properties(hwdb, device, 0); entry; entry = next(entry)) found++;
    printf("%lu properties\n", found);
    return 0;
}

static int link_all(const char *file, const char *folder, unsigned long count) {
    char path[4096];
    for (unsigned long i = 1; i <= count; i++) {
        snprintf(path, sizeof path, "%s/%08lx.hwdb", folder, i * 2654435761UL % 4294967296UL);
        if (link(file, path)) fail(path);
    }
    return 0;
}

typedef int new_sd(void **);
typedef int seek_sd(void *, const char *);
typedef int enumerate_sd(void *, const char **, const char **);

static int sd_look_up(const char *path, const char *devices, long rounds) {
    void *library = dlopen(path, RTLD_NOW), *hwdb;
    if (!library) return fprintf(stderr, "%s\n", dlerror()), 1;
    seek_sd *seek = (seek_sd *)named(library, "sd_hwdb_seek");
    enumerate_sd *enumerate = (enumerate_sd *)named(library, "sd_hwdb_enumerate");
    struct bytes text = lines_of(devices);
    if (((new_sd *)named(library, "sd_hwdb_new"))(&hwdb) < 0) return fprintf(stderr, "no hardware database\n"), 1;
    unsigned long found = 0;
    const char *key, *value;
    for (long round = 0; round < rounds; round++)
        for (char *device = text.at; device < text.at + text.length; device += strlen(device) + 1)
            for (seek(hwdb, device); enumerate(hwdb, &key, &value) > 0;) found++;
    printf("%lu properties\n", found);
    return 0;
}

typedef void *unref_sd(void *);

static int open_often(const char *path, const char *device, long count) {
    void *library = dlopen(path, RTLD_NOW), *hwdb;
    if (!library) return fprintf(stderr, "%s\n", dlerror()), 1;
    new_sd *new = (new_sd *)named(library, "sd_hwdb_new");
    seek_sd *seek = (seek_sd *)named(library, "sd_hwdb_seek");
    enumerate_sd *enumerate = (enumerate_sd *)named(library, "sd_hwdb_enumerate");
    unref_sd *unref = (unref_sd *)named(library, "sd_hwdb_unref");
    unsigned long found = 0;
    const char *key, *value;
    for (long i = 0; i < count; i++) {
        if (new(&hwdb) < 0) return fprintf(stderr, "no hardware database\n"), 1;
        for (seek(hwdb, device); enumerate(hwdb, &key, &value) > 0;) found++;
        unref(hwdb);
    }
    printf("%lu properties\n", found);
    return 0;
}

int main(int count, char **words) {
    if (count > 3 && !strcmp(words[1], "time")) return time_all(atoi(words[2]), words + 3);
    if (count > 4 && !strcmp(words[1], "processor")) {
        most_seconds = atoi(words[2]);
        return time_all(atoi(words[3]), words + 4);
    }
    if (count == 5 && !strcmp(words[1], "links")) return link_all(words[2], words[3], strtoul(words[4], 0, 10));
    if (count >= 3 && !strcmp(words[1], "read")) {
        for (int i = 2; i < count; i++)
            if (bytes_of(words[i]).length == 0) return 1;
        return 0;
    }
    if (count == 5 && !strcmp(words[1], "udev")) return look_up(words[2], words[3], atol(words[4]));
    if (count == 5 && !strcmp(words[1], "sd")) return sd_look_up(words[2], words[3], atol(words[4]));
    if (count == 5 && !strcmp(words[1], "opens")) return open_often(words[2], words[3], atol(words[4]));
    return fprintf(stderr, "usage: see the source\n"), 1;
}
