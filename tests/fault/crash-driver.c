/* Runs one `update` of the program again and again, each time ended, or refused, at another of its file calls, and
 * judges what it leaves. See tests/fault/crash and tests/fault/crash-library.c.
 *
 * Each of them once more beside a file that a killed update left, if a database stands there before.
 *
 * usage: crash-driver LIBRARY NAME ROOT DATABASE OLD NEW PROGRAM WORD..
 *   LIBRARY    what tests/fault/crash-library.c was compiled to
 *   NAME       of the update, for what is printed
 *   ROOT       the root that it works in, whose database is asked for the device `device`
 *   DATABASE   the file that it writes
 *   OLD, NEW   files with the database that stands there before, or `-` for none, and with the one that it writes
 * It works in the current folder, and prints a line for each wrong end and then a line of counts. The last line of the
 * file `tally` that it adds is 'PASSED FAILED'. */
#define _GNU_SOURCE
#include <dirent.h>
#include <errno.h>
#include <libgen.h>
#include <limits.h>
#include <signal.h>
#include <sys/resource.h>
#include "driver.h"

enum { SECONDS = 60, MOST_CALLS = 2000, MOST_NAMES = 64, MOST_KINDS = 32, MOST_SHOWN = 5, OLD_MODE = 0640, NEW_MODE = 0444 };
#define PIECE "4000"
#define PART_NAME ".#hwdb.bin"
#define LEFTOVER ".#hwdb.bin7"

struct answer { int status; struct text out, err; };

static const char *library, *name, *root, *database;
static char folder[PATH_MAX], first_names[MOST_NAMES][NAME_MAX + 1];
static int count_of_first, was_folder_there;
/* Whether a killed update's file stands in the folder before each run. */
static int has_leftover;
static struct text old, new, faults;
static struct answer answer_of_old, answer_of_new;
static char **words;

static void let_go(struct answer *answer) { free(answer->out.bytes), free(answer->err.bytes); }

/* Whether the folder of the database had the name before the first run. */
static int is_first(const char *entry) {
    for (int i = 0; i < count_of_first; i++)
        if (!strcmp(first_names[i], entry)) return 1;
    return 0;
}

/* Which names may stand beside the database. */
enum may { NOTHING, A_LEFTOVER, A_PART };

/* Goes over the database's folder: each name that wasn't there at first, but for the database, is deleted, or else is
 * looked at. Answers a name that must not be there, or null. */
static const char *look_at_folder(int deletes, enum may may) {
    static char found[PATH_MAX];
    int has_found = 0;
    DIR *entries = opendir(folder);
    if (!entries) return 0;
    for (struct dirent *entry; (entry = readdir(entries));) {
        char path[2 * PATH_MAX];
        int is_part = !strncmp(entry->d_name, PART_NAME, strlen(PART_NAME));
        if (is_first(entry->d_name) || !strcmp(entry->d_name, ".") || !strcmp(entry->d_name, "..")) continue;
        snprintf(path, sizeof path, "%s/%s", folder, entry->d_name);
        if (deletes) { unlink(path); continue; }
        if (!strcmp(path, database) || (is_part && may == A_PART) || (may == A_LEFTOVER && !strcmp(entry->d_name, LEFTOVER))) continue;
        snprintf(found, sizeof found, "%s", entry->d_name);
        has_found = 1;
    }
    closedir(entries);
    return has_found ? found : 0;
}

/* Makes the database and its folder what they were before the first run. */
static void put_back(void) {
    char path[2 * PATH_MAX];
    look_at_folder(1, NOTHING);
    unlink(database);
    if (old.is_there) {
        make_file(database, old.bytes, old.length, OLD_MODE);
    } else if (!was_folder_there) {
        snprintf(path, sizeof path, "%s", folder);
        while (!rmdir(path)) dirname(path);
    }
    if (has_leftover) {
        snprintf(path, sizeof path, "%s/%s", folder, LEFTOVER);
        make_file(path, "half", 4, 0600);
    }
}

/* What a run is told: where it ends, and how its calls go. A null is left unsaid. */
struct plan { const char *how; unsigned long at; int error; const char *piece; int is_again, takes_name; };

static void run_child(struct plan *plan, char **with) {
    char at[32], error[32];
    open_streams();
    setenv("LD_PRELOAD", library, 1);
    if (plan) {
        snprintf(at, sizeof at, "%lu", plan->at), snprintf(error, sizeof error, "%d", plan->error);
        setenv("CRASH_AT", at, 1), setenv("CRASH_ERRNO", error, 1);
        setenv("CRASH_MARK", "mark", 1);
        if (plan->how) setenv("CRASH_HOW", plan->how, 1);
        if (plan->piece) setenv("CRASH_PIECE", plan->piece, 1);
        if (plan->is_again) setenv("CRASH_AGAIN", "1", 1);
        if (plan->takes_name) setenv("CRASH_TAKES", "1", 1);
    }
    alarm(SECONDS);
    execv(with[0], with);
    _exit(127);
}

/* How a run of the program ends. A status above 255 is a signal's. */
static struct answer answer_of(struct plan *plan, char **with) {
    struct answer answer = {0};
    unlink("mark");
    pid_t child = fork();
    if (child < 0) fail("fork");
    if (child == 0) run_child(plan, with);
    answer.status = status_of(child);
    answer.out = text_of("out");
    answer.err = text_of("err");
    return answer;
}

static struct answer query(void) {
    char *with[] = {words[0], "-r", (char *)root, "query", "device", 0};
    return answer_of(0, with);
}

static int is_same_answer(struct answer *a, struct answer *b) {
    return a->status == b->status && is_same(a->out, b->out) && is_same(a->err, b->err);
}

/* What stands under the database's name. */
static const char *wrong_database(int *is_new) {
    struct text found = text_of(database);
    struct stat of_file;
    int is_old = is_same(found, old);
    *is_new = is_same(found, new);
    free(found.bytes);
    if (!is_old && !*is_new) return "the database is neither the old one nor the new one";
    if (*is_new && (lstat(database, &of_file) || (of_file.st_mode & 07777) != NEW_MODE)) return "the new database's mode isn't 444";
    return 0;
}

static const char *wrong_query(int is_new) {
    struct answer is = query();
    int is_right = is_same_answer(&is, is_new ? &answer_of_new : &answer_of_old);
    let_go(&is);
    return is_right ? 0 : "a query doesn't give the database's answer";
}

/* The update that comes next, undisturbed. */
static const char *wrong_next_update(void) {
    int is_new;
    struct answer is = answer_of(0, words);
    int is_right = is.status == 0 && is.out.length == 0 && is_same(is.err, faults);
    let_go(&is);
    if (wrong_database(&is_new) || !is_new || !is_right) return "the next update fails";
    if (look_at_folder(0, NOTHING)) return "the next update leaves a file";
    return 0;
}

/* Where it happened: the words of the file that tests/fault/crash-library.c makes there. */
struct call { char name[32], path[PATH_MAX]; int is_there, has_renamed; };

static struct call call_of(void) {
    struct call call = {.is_there = 0};
    char renamed[32] = "";
    struct text mark = text_of("mark");
    if (mark.is_there) call.is_there = sscanf(mark.bytes, "%31s %4095s %31s", call.name, call.path, renamed) == 3;
    call.has_renamed = !strcmp(renamed, "renamed");
    free(mark.bytes);
    return call;
}

static const char *after_kill(struct answer *is) {
    int is_new;
    const char *wrong = wrong_database(&is_new);
    if (wrong) return wrong;
    if (is->status != 256 + SIGKILL) return "it wasn't killed";
    if (look_at_folder(0, A_PART)) return "a file is left whose name is another";
    if ((wrong = wrong_query(is_new))) return wrong;
    return wrong_next_update();
}

/* Whether standard error is the fault lines, and then, where a cause is given, the line of a refusal for this cause. */
static const char *wrong_lines(struct text *err, const char *cause) {
    size_t at = cause ? 0 : err->length;
    if (cause) {
        const char *last = err->length && err->bytes[err->length - 1] == '\n' ? err->bytes + err->length - 1 : 0;
        while (last && last > err->bytes && last[-1] != '\n') last--;
        if (!last) return "standard error has no line";
        at = last - err->bytes;
    }
    if (at != 0 && (at != faults.length || memcmp(err->bytes, faults.bytes, at))) return "standard error has other lines";
    if (!cause) return at == faults.length ? 0 : "a fault line is missing";
    char wanted[PATH_MAX + 200];
    char *line = err->bytes + at;
    snprintf(wanted, sizeof wanted, "hwdb: cannot write %s: %s\n", database, cause);
    if (!strcmp(line, wanted)) return 0;
    snprintf(wanted, sizeof wanted, ": %s\n", cause);
    size_t length = strlen(wanted), read_length = strlen("hwdb: cannot read ");
    if (strncmp(line, "hwdb: cannot read ", read_length) || strlen(line) <= read_length + length ||
        strcmp(line + strlen(line) - length, wanted))
        return "the line of the refusal is another";
    return 0;
}

static int is_one_of(const char *word, const char *const *all) {
    for (; *all; all++)
        if (!strcmp(word, *all)) return 1;
    return 0;
}

/* Whether the call looks at the folder, or at one above it. */
static int is_above(struct call *call) {
    return !strcmp(call->name, "stat") && !strncmp(call->path, folder, strlen(call->path));
}

/* What is wrong with the refusal. Where a folder is there and can't be looked at, the cause is that it is there. */
static const char *wrong_cause(struct answer *is, struct call *call, int error) {
    const char *wrong = wrong_lines(&is->err, strerror(error));
    if (wrong && is_above(call)) wrong = wrong_lines(&is->err, strerror(EEXIST));
    return wrong;
}

/* Whether the call is one of those that look for what killed updates left, and remove it: none of these stops an update. */
static int is_clearing(struct call *call) {
    char listed[PATH_MAX + 1], leftover[2 * PATH_MAX];
    snprintf(listed, sizeof listed, "%s/", folder);
    snprintf(leftover, sizeof leftover, "%s/%s", folder, LEFTOVER);
    return !strcmp(call->path, listed) || !strcmp(call->path, leftover);
}

/* How a run ended in which the call failed with that error. Where another process took the new file's old name after
 * the rename, its file has to stay. */
static const char *after_failure(struct answer *is, struct call *call, int error, int takes_name) {
    static const char *const tried_again[] = {"read", "write", "fsync", "fdatasync", 0}, *const of_folder[] = {"open", "fsync", 0};
    static const char *const counts[] = {"open", "list", "read", "write", "fchmod", "fsync", "fdatasync", "rename", 0};
    int is_new;
    const char *wrong = wrong_database(&is_new);
    if (wrong) return wrong;
    if (is->out.length) return "standard output isn't empty";
    int has_taken = takes_name && is_new;
    /* A refusal may come before anything is removed, and so may a failed look at where the folder is. */
    if (look_at_folder(0, has_taken ? A_PART : is_clearing(call) || is_above(call) || is->status ? A_LEFTOVER : NOTHING)) return "a file is left";
    if (has_taken && !look_at_folder(0, NOTHING)) return "a file of another process is deleted";
    if (is_clearing(call) && is->status) return "a leftover that can't be looked at stops the update";
    if (is->status == 0 && error && error != EINTR && is_one_of(call->name, counts) && !is_clearing(call)) return "a failed call was passed over";
    if (is->status == 0) return is_new ? wrong_lines(&is->err, 0) : "status 0, and the old database";
    if (is->status != 1) return "the status is neither 0 nor 1";
    if (error == EINTR && is_one_of(call->name, tried_again)) return "an interrupted call wasn't tried again";
    if (call->has_renamed && !is_one_of(call->name, of_folder)) return "a refusal over a call after the rename";
    if (is_new != call->has_renamed) return is_new ? "a refusal, and the new database" : "the old database after the rename";
    return wrong_cause(is, call, error);
}

static unsigned long passed, failed;

static void show(const char *what, const char *wrong, struct call *call, struct answer *is) {
    if (!wrong) { passed++; return; }
    if (failed++ >= MOST_SHOWN) return;
    const char *left = look_at_folder(0, NOTHING);
    printf("FAILED: %s, %s, at %s %s%s: %s (status %d, out '%.200s', err '%.300s'%s%s)\n", name, what, call->name, call->path,
           call->has_renamed ? " after the rename" : "", wrong, is->status, is->out.bytes, is->err.bytes, left ? ", left " : "",
           left ? left : "");
}

/* How often each call was met. */
struct kind { char name[32]; unsigned long count; };
static struct kind kinds[MOST_KINDS];

static void count(const char *call) {
    for (int i = 0; i < MOST_KINDS; i++) {
        if (!kinds[i].name[0]) snprintf(kinds[i].name, sizeof kinds[i].name, "%s", call);
        if (!strcmp(kinds[i].name, call)) { kinds[i].count++; return; }
    }
}

/* Lets it happen at one call after another, until a run has no call of this number. Answers how many there are. */
static unsigned long try_each(const char *how, int error, int takes_name) {
    char what[80];
    snprintf(what, sizeof what, "%s%s%s", how, error ? " with " : "", error ? strerrorname_np(error) : "");
    for (unsigned long at = 1; at <= MOST_CALLS; at++) {
        struct plan plan = {how, at, error, PIECE, 0, takes_name};
        put_back();
        struct answer is = answer_of(&plan, words);
        struct call call = call_of();
        if (call.is_there && !strcmp(how, "before")) count(call.name);
        if (!call.is_there) call.has_renamed = 1;
        const char *wrong = call.is_there && !error ? after_kill(&is) : after_failure(&is, &call, error, takes_name);
        if (!call.is_there && is.status) wrong = "an undisturbed run fails";
        show(what, wrong, &call, &is);
        let_go(&is);
        if (!call.is_there) return at - 1;
    }
    failed++;
    printf("FAILED: %s: more than %d calls\n", name, MOST_CALLS);
    return MOST_CALLS;
}

/* A run whose calls take less than they were given, or are interrupted, all of them. */
static void try_whole(const char *what, const char *piece, int is_again) {
    struct plan plan = {0, 0, 0, piece, is_again, 0};
    put_back();
    struct answer is = answer_of(&plan, words);
    struct call call = call_of();
    show(what, is.status ? "the status isn't 0" : after_failure(&is, &call, 0, 0), &call, &is);
    let_go(&is);
}

static void note_first_names(void) {
    snprintf(folder, sizeof folder, "%s", database);
    dirname(folder);
    DIR *entries = opendir(folder);
    was_folder_there = entries != 0;
    for (struct dirent *entry; entries && (entry = readdir(entries)) && count_of_first < MOST_NAMES;)
        if (strcmp(entry->d_name, "hwdb.bin")) strcpy(first_names[count_of_first++], entry->d_name);
    if (entries) closedir(entries);
}

int main(int count_of_words, char **all) {
    if (count_of_words < 9) return fprintf(stderr, "usage: see the source\n"), 2;
    library = all[1], name = all[2], root = all[3], database = all[4];
    if (strcmp(all[5], "-")) old = text_of(all[5]);
    new = text_of(all[6]);
    words = all + 7;
    if (!new.is_there) fail(all[6]);
    note_first_names();
    put_back();
    answer_of_old = query();
    struct answer whole = answer_of(0, words);
    faults = whole.err;
    answer_of_new = query();
    if (whole.status || is_same_answer(&answer_of_old, &answer_of_new)) failed++, printf("FAILED: %s: nothing to compare\n", name);
    unsigned long calls = 0;
    for (has_leftover = 0; has_leftover < 1 + old.is_there; has_leftover++) {
        calls = try_each("before", 0, 0);
        try_each("after", 0, 0);
        try_each("part", 0, 0);
        static const int errors[] = {ENOSPC, EIO, EACCES, EINTR};
        for (size_t i = 0; i < sizeof errors / sizeof *errors; i++) try_each("fail", errors[i], 0);
        try_each("fail", EIO, 1);
    }
    has_leftover = old.is_there;
    try_whole("pieces of one byte", "1", 0);
    try_whole("half of each write", "half", 0);
    try_whole("interrupted calls", 0, 1);
    try_whole("interrupted calls in pieces of one byte", "1", 1);
    has_leftover = 0;
    put_back();
    printf("%s: %lu calls", name, calls);
    for (int i = 0; i < MOST_KINDS && kinds[i].name[0]; i++) printf("%s %s %lu", i ? "," : ":", kinds[i].name, kinds[i].count);
    printf("\n");
    FILE *tally = fopen("tally", "a");
    if (!tally || fprintf(tally, "%lu %lu\n", passed, failed) < 0 || fclose(tally)) fail("tally");
    return 0;
}
