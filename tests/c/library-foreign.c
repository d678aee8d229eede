/* A library that a program loads for itself alone (RTLD_LOCAL), as Python does its modules, and that walks a list of libudev's.
 * tests/c/library puts libhwdb-udev in front of it. LIBUDEV is a libudev with one such list, USER the library that walks it. */
#define _GNU_SOURCE
#include <dlfcn.h>
#include <stdio.h>
#include <string.h>

struct udev_list_entry;
struct udev_list_entry *udev_list_entry_get_next(struct udev_list_entry *entry);
struct udev_list_entry *udev_list_entry_get_by_name(struct udev_list_entry *entry, const char *name);
const char *udev_list_entry_get_name(struct udev_list_entry *entry);
const char *udev_list_entry_get_value(struct udev_list_entry *entry);
struct udev_list_entry *foreign_list(void);
void walk(void);

#if defined(LIBUDEV)

struct udev_list_entry {
    struct udev_list_entry *next;
    const char *name, *value;
};

static struct udev_list_entry list[] = {{list + 1, "one", "1"}, {list + 2, "two", "2"}, {NULL, "three", "3"}};

struct udev_list_entry *foreign_list(void) {
    return list;
}

struct udev_list_entry *udev_list_entry_get_next(struct udev_list_entry *entry) {
    return entry->next;
}

struct udev_list_entry *udev_list_entry_get_by_name(struct udev_list_entry *entry, const char *name) {
    while (entry && strcmp(entry->name, name) != 0)
        entry = entry->next;
    return entry;
}

const char *udev_list_entry_get_name(struct udev_list_entry *entry) {
    return entry->name;
}

const char *udev_list_entry_get_value(struct udev_list_entry *entry) {
    return entry->value;
}

#elif defined(USER)

void walk(void) {
    for (struct udev_list_entry *entry = foreign_list(); entry; entry = udev_list_entry_get_next(entry)) {
        const char *name = udev_list_entry_get_name(entry), *value = udev_list_entry_get_value(entry);
        printf("%s=%s\n", name ? name : "none", value ? value : "none");
    }
    printf("%d\n", udev_list_entry_get_by_name(foreign_list(), "two") == udev_list_entry_get_next(foreign_list()));
}

#else

int main(int argc, char **argv) {
    void *user = dlopen("./foreign-user.so", RTLD_NOW | (argc > 1 && !strcmp(argv[1], "global") ? RTLD_GLOBAL : RTLD_LOCAL));
    if (!user) {
        puts(dlerror());
        return 1;
    }
    void (*call)(void) = dlsym(user, "walk");
    call();
    return 0;
}

#endif
