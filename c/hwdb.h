/* libhwdb: lookups in the hardware database, under the names and with the meanings of systemd's sd-hwdb.h.
 *
 * Every call that can fail answers 0 or more, or a negative errno. A handle is for one thread at a time.
 *
 * Cost: opening reads a few blocks of the file. A lookup takes one descent of the database's tree, and reads the blocks on its way
 * that weren't read before; the more a handle has read, the more it reads at once. It checks each record and string that it
 * enters. A handle holds the open file and the blocks that were read, the properties of its last lookup, and each string that it
 * gave, once.
 *
 * Stack use is bounded: 256 KiB are enough for any file, trusted or not. */
#ifndef HWDB_H
#define HWDB_H

#ifdef __cplusplus
extern "C" {
#endif

/* A database, of which some blocks were read and checked, and the properties of the last lookup. */
typedef struct sd_hwdb sd_hwdb;

/* Opens the first of these whose name is there, and checks its header and its root: /etc/udev/hwdb.bin, /usr/lib/udev/hwdb.bin,
 * /etc/systemd/hwdb/hwdb.bin, /usr/lib/systemd/hwdb/hwdb.bin. *ret gets a handle with one reference.
 *
 * Errors: -EINVAL if ret is NULL, or the name is of something other than a file. -EISDIR if it is a folder's. -ENOENT if
 * there is none. -EUCLEAN if the file isn't a database. -EFBIG if it has more than 256 MiB. -ENOMEM if an allocation
 * fails. And the errors of open(2) and read(2). */
int sd_hwdb_new(sd_hwdb **ret);

/* As sd_hwdb_new, of the file at a path alone. It answers -EINVAL too if the path is NULL or empty. */
int sd_hwdb_new_from_path(const char *path, sd_hwdb **ret);

/* Adds a reference to the handle, and answers the handle. NULL stays NULL. */
sd_hwdb *sd_hwdb_ref(sd_hwdb *hwdb);

/* Takes a reference away. After the last one the handle is freed, and every string that it gave. Answers NULL. */
sd_hwdb *sd_hwdb_unref(sd_hwdb *hwdb);

/* The value that the device has under a key. The string belongs to the handle, and stays until the handle is freed. Each call
 * is a lookup: for more than one key, sd_hwdb_seek takes one for all.
 *
 * Errors: -ENOENT if the device has no such key. -EINVAL if an argument is NULL. -ENOMEM if an allocation fails. -EUCLEAN if what
 * was read on the way is no part of a database, or the file was cut. And the errors of read(2). */
int sd_hwdb_get(sd_hwdb *hwdb, const char *modalias, const char *key, const char **value);

/* Looks a device up. After it sd_hwdb_enumerate gives the device's properties, from the first one on.
 *
 * Errors: those of sd_hwdb_get but -ENOENT. */
int sd_hwdb_seek(sd_hwdb *hwdb, const char *modalias);

/* Reads what wasn't read so far, and checks the whole file: 0 if it is a database. A lookup checks only what it enters.
 *
 * Errors: -EUCLEAN if the file isn't a database, or was cut. -EINVAL if hwdb is NULL. And the errors of read(2). */
int hwdb_check(sd_hwdb *hwdb);

/* The next property, ascending by key. Answers 1, or 0 after the last. The strings belong to the handle, and stay until
 * the handle is freed.
 *
 * Errors: -EAGAIN if sd_hwdb_get came after the last sd_hwdb_seek, or that one failed. -EINVAL if an argument is NULL.
 * -ENOMEM if an allocation fails. */
int sd_hwdb_enumerate(sd_hwdb *hwdb, const char **key, const char **value);

/* The two below are in systemd's <systemd/sd-hwdb.h> too. Its guard leaves them to whichever header comes first. */
#ifndef foosdhwdbhfoo
#define foosdhwdbhfoo

/* A loop over the properties of a device: `SD_HWDB_FOREACH_PROPERTY(hwdb, modalias, key, value) { .. }`. */
#define SD_HWDB_FOREACH_PROPERTY(hwdb, modalias, key, value) \
    if (sd_hwdb_seek((hwdb), (modalias)) < 0) {              \
    } else                                                   \
        while (sd_hwdb_enumerate((hwdb), &(key), &(value)) > 0)

/* For `__attribute__((cleanup(sd_hwdb_unrefp)))`. */
static inline void sd_hwdb_unrefp(sd_hwdb **hwdb) {
    if (*hwdb)
        sd_hwdb_unref(*hwdb);
}

#endif

#ifdef __cplusplus
}
#endif

#endif
