/* libudev's calls on the hardware database, over the calls of hwdb.h. A program that asks libudev for a device's
 * properties runs on it unchanged, if this library is loaded first (LD_PRELOAD=libhwdb-udev.so.0). Its other calls stay
 * libudev's.
 *
 * As in libudev, a call that fails gives NULL and sets errno. A list ascends by name, and stays until the handle's next
 * lookup. A handle is for one thread at a time. */
#define _GNU_SOURCE
#include "hwdb.h"

#include <dlfcn.h>
#include <errno.h>
#include <stdlib.h>
#include <string.h>

struct udev;
struct udev_hwdb;
struct udev_list_entry;

struct udev_hwdb *udev_hwdb_new(struct udev *udev);
struct udev_hwdb *udev_hwdb_ref(struct udev_hwdb *hwdb);
struct udev_hwdb *udev_hwdb_unref(struct udev_hwdb *hwdb);
struct udev_list_entry *udev_hwdb_get_properties_list_entry(struct udev_hwdb *hwdb, const char *modalias, unsigned flags);
struct udev_list_entry *udev_list_entry_get_next(struct udev_list_entry *entry);
struct udev_list_entry *udev_list_entry_get_by_name(struct udev_list_entry *entry, const char *name);
const char *udev_list_entry_get_name(struct udev_list_entry *entry);
const char *udev_list_entry_get_value(struct udev_list_entry *entry);

/* What an entry of ours begins with. An entry of libudev's own lists begins with a pointer too, to something else. */
static const char mark;

struct udev_list_entry {
    const char *mark;
    struct udev_hwdb *owner;
    const char *name;
    const char *value;
};

struct udev_hwdb {
    size_t references;
    sd_hwdb *hwdb;
    /* the properties of the last lookup, whose strings are the handle's */
    struct udev_list_entry *entries;
    size_t room;
    size_t used;
};

struct udev_hwdb *udev_hwdb_new(struct udev *udev) {
    (void)udev;
    struct udev_hwdb *hwdb = calloc(1, sizeof *hwdb);
    if (!hwdb) {
        errno = ENOMEM;
        return NULL;
    }
    int r = sd_hwdb_new(&hwdb->hwdb);
    if (r < 0) {
        free(hwdb);
        errno = -r;
        return NULL;
    }
    hwdb->references = 1;
    return hwdb;
}

struct udev_hwdb *udev_hwdb_ref(struct udev_hwdb *hwdb) {
    if (hwdb)
        hwdb->references++;
    return hwdb;
}

struct udev_hwdb *udev_hwdb_unref(struct udev_hwdb *hwdb) {
    if (!hwdb || --hwdb->references > 0)
        return NULL;
    sd_hwdb_unref(hwdb->hwdb);
    free(hwdb->entries);
    free(hwdb);
    return NULL;
}

/* Adds a property to the list: 0, or -ENOMEM. */
static int add(struct udev_hwdb *hwdb, const char *name, const char *value) {
    if (hwdb->used == hwdb->room) {
        size_t room = hwdb->room ? 2 * hwdb->room : 16;
        struct udev_list_entry *entries = reallocarray(hwdb->entries, room, sizeof *entries);
        if (!entries)
            return -ENOMEM;
        hwdb->entries = entries;
        hwdb->room = room;
    }
    hwdb->entries[hwdb->used++] = (struct udev_list_entry){&mark, hwdb, name, value};
    return 0;
}

struct udev_list_entry *udev_hwdb_get_properties_list_entry(struct udev_hwdb *hwdb, const char *modalias, unsigned flags) {
    const char *name, *value;

    (void)flags;
    if (!hwdb || !modalias) {
        errno = EINVAL;
        return NULL;
    }
    hwdb->used = 0;
    int r = sd_hwdb_seek(hwdb->hwdb, modalias);
    while (r >= 0 && (r = sd_hwdb_enumerate(hwdb->hwdb, &name, &value)) > 0)
        r = add(hwdb, name, value);
    if (r < 0) {
        hwdb->used = 0;
        errno = -r;
        return NULL;
    }
    if (hwdb->used == 0) {
        errno = ENODATA;
        return NULL;
    }
    return hwdb->entries;
}

/* Whether an entry is one of ours, and not one of libudev's own lists. */
static int is_ours(const struct udev_list_entry *entry) {
    return entry->mark == &mark;
}

/* libudev's own call of a name, for its own lists; or NULL. If libudev was loaded for one library alone (RTLD_LOCAL), as by a
 * Python module, RTLD_NEXT doesn't find it. It is loaded all the same, since an entry of its lists came from it. */
static void *theirs(const char *name) {
    void *call = dlsym(RTLD_NEXT, name);
    if (call)
        return call;
    void *libudev = dlopen("libudev.so.1", RTLD_NOLOAD | RTLD_LAZY);
    if (!libudev)
        return NULL;
    call = dlsym(libudev, name);
    dlclose(libudev);
    return call;
}

struct udev_list_entry *udev_list_entry_get_next(struct udev_list_entry *entry) {
    if (!entry)
        return NULL;
    if (!is_ours(entry)) {
        struct udev_list_entry *(*call)(struct udev_list_entry *) = theirs("udev_list_entry_get_next");
        return call ? call(entry) : NULL;
    }
    struct udev_hwdb *owner = entry->owner;
    return entry + 1 < owner->entries + owner->used ? entry + 1 : NULL;
}

struct udev_list_entry *udev_list_entry_get_by_name(struct udev_list_entry *entry, const char *name) {
    if (!entry || !name)
        return NULL;
    if (!is_ours(entry)) {
        struct udev_list_entry *(*call)(struct udev_list_entry *, const char *) = theirs("udev_list_entry_get_by_name");
        return call ? call(entry, name) : NULL;
    }
    struct udev_hwdb *owner = entry->owner;
    for (size_t i = 0; i < owner->used; i++)
        if (strcmp(owner->entries[i].name, name) == 0)
            return owner->entries + i;
    return NULL;
}

const char *udev_list_entry_get_name(struct udev_list_entry *entry) {
    if (!entry)
        return NULL;
    if (!is_ours(entry)) {
        const char *(*call)(struct udev_list_entry *) = theirs("udev_list_entry_get_name");
        return call ? call(entry) : NULL;
    }
    return entry->name;
}

const char *udev_list_entry_get_value(struct udev_list_entry *entry) {
    if (!entry)
        return NULL;
    if (!is_ours(entry)) {
        const char *(*call)(struct udev_list_entry *) = theirs("udev_list_entry_get_value");
        return call ? call(entry) : NULL;
    }
    return entry->value;
}
