/* Runs one command of the program again and again, each time with another request for memory refused, and judges what
 * it answers. See tests/fault/memory.
 *
 * usage: memory-driver LIBRARY NAME OUTPUT DATABASE LINES PROGRAM WORD..
 *   LIBRARY    what tests/fault/memory-library.c was compiled to
 *   NAME       of the command, for what is printed
 *   OUTPUT     `whole` or `lines`: after a refusal standard output is empty, or has whole lines of what it has without
 *   DATABASE   the file that the command writes, or `-`. Before each run it is made what it was at first: where it wasn't
 *              there it is deleted, and its folder too where that is empty then
 *   LINES      a file with the beginnings of the lines that the command may answer with where a file call was refused
 *              memory; after each comes a cause. Where one is of a file that is written, a refusal may stand after the
 *              fault lines
 * In the folder of DATABASE no file may be left that wasn't there at first.
 * It works in the current folder, and prints a line for each wrong answer and then a line of counts. The last line of
 * the file `tally` that it adds is 'PASSED FAILED'. */
#define _GNU_SOURCE
#include <dirent.h>
#include <errno.h>
#include <libgen.h>
#include <limits.h>
#include <sys/resource.h>
#include "driver.h"

enum { SECONDS = 60, MOST_REQUESTS = 50000, MOST_NAMES = 32, MOST_SHOWN = 5 };

struct answer { int status; const char *left; struct text out, err, database; };

static const char *library, *name, *database;
static char folder[PATH_MAX], first_names[MOST_NAMES][NAME_MAX + 1];
static int count_of_first;
static int may_be_lines;
static struct text lines, old;
static size_t faults_length;
static char **words;

static int is_text(struct text a, const char *b) { return a.length == strlen(b) && !memcmp(a.bytes, b, a.length); }

static int is_prefix(struct text a, struct text b) { return a.length <= b.length && !memcmp(a.bytes, b.bytes, a.length); }

static void let_go(struct answer *answer) {
    free(answer->out.bytes), free(answer->err.bytes), free(answer->database.bytes);
}

static int is_first(const char *entry) {
    for (int i = 0; i < count_of_first; i++)
        if (!strcmp(first_names[i], entry)) return 1;
    return 0;
}

/* Notes the names in the database's folder, but for the database. */
static void note_first_names(void) {
    snprintf(folder, sizeof folder, "%s", database);
    dirname(folder);
    DIR *entries = opendir(folder);
    for (struct dirent *entry; entries && (entry = readdir(entries)) && count_of_first < MOST_NAMES;)
        if (strcmp(entry->d_name, "hwdb.bin")) strcpy(first_names[count_of_first++], entry->d_name);
    if (entries) closedir(entries);
}

/* A name in the database's folder that wasn't there at first, and isn't the database's, or null. Deletes these files. */
static const char *left_behind(void) {
    static char found[PATH_MAX];
    int has_found = 0;
    DIR *entries = database ? opendir(folder) : 0;
    if (!entries) return 0;
    for (struct dirent *entry; (entry = readdir(entries));) {
        char path[2 * PATH_MAX];
        snprintf(path, sizeof path, "%s/%s", folder, entry->d_name);
        if (!strcmp(entry->d_name, ".") || !strcmp(entry->d_name, "..") || is_first(entry->d_name) || !strcmp(path, database)) continue;
        snprintf(found, sizeof found, "%s", entry->d_name);
        has_found = 1;
        unlink(path);
    }
    closedir(entries);
    return has_found ? found : 0;
}

/* Makes the database what it was before the first run. */
static void put_back(void) {
    if (!database) return;
    unlink(database);
    if (!old.is_there) {
        rmdir(folder);
        return;
    }
    make_file(database, old.bytes, old.length, 0644);
}

static void run_child(unsigned long from, unsigned long to) {
    char first[32], last[32];
    open_streams();
    struct rlimit no_core = {0, 0};
    setrlimit(RLIMIT_CORE, &no_core);
    snprintf(first, sizeof first, "%lu", from), snprintf(last, sizeof last, "%lu", to);
    setenv("LD_PRELOAD", library, 1), setenv("REFUSE_FROM", first, 1), setenv("REFUSE_TO", last, 1);
    setenv("REFUSED", "mark", 1);
    alarm(SECONDS);
    execv(words[0], words);
    _exit(127);
}

/* What the command answers where the requests of that range are refused. A status above 255 is a signal's. */
static struct answer answer_of(unsigned long from, unsigned long to) {
    struct answer answer = {0};
    put_back();
    unlink("mark");
    pid_t child = fork();
    if (child < 0) fail("fork");
    if (child == 0) run_child(from, to);
    answer.status = status_of(child);
    answer.out = text_of("out");
    answer.err = text_of("err");
    if (database) answer.database = text_of(database);
    answer.left = left_behind();
    return answer;
}

/* How runs ended: how often each kind of answer came, by who asked for the refused memory. */
struct kind { char name[80]; unsigned long count; };
static struct kind kinds[MOST_NAMES];

static void count(const char *what, const char *who) {
    char wanted[80];
    snprintf(wanted, sizeof wanted, "%s (%s)", what, who);
    for (int i = 0; i < MOST_NAMES; i++) {
        if (!kinds[i].name[0]) strcpy(kinds[i].name, wanted);
        if (!strcmp(kinds[i].name, wanted)) { kinds[i].count++; return; }
    }
}

/* Whether a text is a line that begins with one of the lines' texts, and then has a cause. */
static int is_line(const char *text) {
    if (!*text || strchr(text, '\n') != text + strlen(text) - 1) return 0;
    for (char *at = lines.bytes; *at; at = strchr(at, '\n') + 1) {
        size_t length = strchr(at, '\n') - at;
        if (strlen(text) > length + 1 && !memcmp(at, text, length)) return 1;
    }
    return 0;
}

/* How much of standard error is fault lines: all of it, but for the line of a refusal. */
static size_t length_of_faults(struct text err) {
    const char *refusal = strstr(err.bytes, "hwdb: cannot ");
    return refusal ? (size_t)(refusal - err.bytes) : err.length;
}

/* What was printed on standard output before the refusal. */
static int is_untouched(struct answer *is, struct answer *whole) {
    if (is->out.length == 0) return 1;
    return may_be_lines && is_prefix(is->out, whole->out) && is->out.bytes[is->out.length - 1] == '\n';
}

static int is_whole(struct answer *is, struct answer *whole) {
    return is->status == whole->status && is_same(is->out, whole->out) && is_same(is->err, whole->err) &&
           (!database || is_same(is->database, whole->database));
}

/* Whether a refusal may end with that status: 1; of `diff` and `check`, once its words are read, 2. */
static int is_refused(int status) {
    if (status == 1) return 1;
    for (char **word = words; *word; word++)
        if (!strcmp(*word, "diff") || !strcmp(*word, "check")) return status == 2;
    return 0;
}

/* Whether an answer ends in the line of an error: without memory for that line it is written in parts. */
static int ends_in_error(struct answer *is) {
    return is_refused(is->status) && (!strncmp(is->err.bytes, "hwdb: ", 6) || strstr(is->err.bytes, "\nhwdb: "));
}

/* The kind of an answer after a refusal, or null where there must be no such answer. `asks_in_vain`: the program's own
 * request was refused, and all after it. */
static const char *judge(struct answer *is, struct answer *whole, int asks_in_vain) {
    int is_old = !database || is_same(is->database, old);
    if (is->left) return 0;
    if (is_whole(is, whole)) return asks_in_vain && !ends_in_error(whole) ? 0 : "the whole answer";
    if (!is_refused(is->status) || !is_old || !is_untouched(is, whole)) return 0;
    if (is_text(is->err, "hwdb: out of memory\n")) return "out of memory";
    if (is->out.length) return 0;
    if (is_line(is->err.bytes)) return "a file call's line";
    if (faults_length == 0 || is->err.length <= faults_length || memcmp(is->err.bytes, whole->err.bytes, faults_length)) return 0;
    if (!strcmp(is->err.bytes + faults_length, "hwdb: out of memory\n")) return "out of memory, after the fault lines";
    return is_line(is->err.bytes + faults_length) ? "a file call's line, after the fault lines" : 0;
}

static void show(const char *mode, unsigned long number, const char *who, struct answer *is) {
    printf("FAILED: %s, %s %lu refused (asked by: %s): status %d, out '%.200s', err '%.600s'%s%s%s\n", name, mode, number, who,
           is->status, is->out.bytes, is->err.bytes, database && !is_same(is->database, old) ? ", the database changed" : "",
           is->left ? ", left " : "", is->left ? is->left : "");
}

static unsigned long passed, failed;

/* Refuses one request after another, alone or with all after it, until a run has no refusal. Answers how many there are. */
static unsigned long refuse_each(const char *mode, int with_rest, struct answer *whole) {
    for (unsigned long number = 1; number <= MOST_REQUESTS; number++) {
        struct answer is = answer_of(number, with_rest ? ULONG_MAX : number);
        struct text mark = text_of("mark");
        const char *who = mark.is_there ? mark.bytes : "";
        const char *kind = mark.is_there ? judge(&is, whole, with_rest && !strcmp(who, "own")) : 0;
        int is_last = !mark.is_there;
        if (kind) count(kind, who);
        if (is_last && is_whole(&is, whole)) kind = "no refusal";
        if (kind) passed++;
        else if (failed++ < MOST_SHOWN) show(mode, number, is_last ? "none was" : who, &is);
        let_go(&is);
        free(mark.bytes);
        if (is_last) return number - 1;
    }
    failed++;
    printf("FAILED: %s: more than %d requests\n", name, MOST_REQUESTS);
    return MOST_REQUESTS;
}

int main(int count_of_words, char **all) {
    if (count_of_words < 7) return fprintf(stderr, "usage: see the source\n"), 2;
    library = all[1], name = all[2], may_be_lines = !strcmp(all[3], "lines");
    database = strcmp(all[4], "-") ? all[4] : 0;
    lines = text_of(all[5]);
    words = all + 6;
    if (!lines.is_there) fail(all[5]);
    if (database) old = text_of(database), note_first_names();
    struct answer whole = answer_of(0, 0);
    if (strstr(lines.bytes, "hwdb: cannot write ")) faults_length = length_of_faults(whole.err);
    unsigned long requests = refuse_each("request", 0, &whole);
    refuse_each("request and all after", 1, &whole);
    if (requests == 0) failed++, printf("FAILED: %s: no request for memory was counted\n", name);
    put_back();
    printf("%s: %lu requests", name, requests);
    for (int i = 0; i < MOST_NAMES && kinds[i].name[0]; i++) printf("%s %s %lu", i ? "," : ":", kinds[i].name, kinds[i].count);
    printf("\n");
    FILE *tally = fopen("tally", "a");
    if (!tally || fprintf(tally, "%lu %lu\n", passed, failed) < 0 || fclose(tally)) fail("tally");
    return 0;
}
