/* A table that outlives the process: a file that holds one table, kept by one process at a time.
 *
 * A call on a table that lies in a file mapped to memory, or in memory shared with other processes, leaves it half written where the process is stopped inside
 * the call: an open marks the links of its path while it searches, and every call refuses what it left as 3. So the calls work on a table in the process's own
 * memory, and the file is replaced as a whole: the new table goes to a file beside it, onto the disk (fsync), and then takes the name (rename), which goes onto the disk too. Whenever the process or the
 * machine stops, the name stands for the table before the change or for the one after it; once a change is saved, for the one after it.
 *
 * The process that may write holds a lock (fcntl) on the file. Another one is told which process that is, and may look. For POSIX systems; a program
 * defines _XOPEN_SOURCE as 700 before its first #include. */
#ifndef TABLE_FILE_H
#define TABLE_FILE_H

#include "any_table.h"
#include <dirent.h>
#include <errno.h>
#include <fcntl.h>
#include <stdio.h>
#include <stdlib.h>
#include <string.h>
#include <sys/stat.h>
#include <unistd.h>

enum table_file_answer {
    TABLE_FILE_KEPT,  /* the table is read, and the file is this process's to replace */
    TABLE_FILE_LOOKS, /* the table is read; the file cannot be written, and `why` tells the reason */
    TABLE_FILE_BAD    /* there is no table; `why` tells the reason */
};

/* What stands between the name of a table and the six characters that make the name of the new file beside it. */
#define TABLE_FILE_BESIDE ".saving."
#define TABLE_FILE_BESIDE_BYTES (sizeof TABLE_FILE_BESIDE + 6)

struct table_file {
    char name[4096]; /* with no symbolic link in it, so that a link to the table stays one */
    char why[256];
    int lock; /* the open file with the lock, or -1 */
};

static enum table_file_answer table_file_because(struct table_file *file, enum table_file_answer answer, const char *why) {
    snprintf(file->why, sizeof file->why, "%s", why);
    return answer;
}

/* Reads a whole table from an open file, of either kind. What is in it was written by anybody: it is tested. Answers NULL, or what is wrong with it. */
static const char *table_file_read(int from, struct any_table *table) {
    static struct any_table found;
    uint8_t more; /* one byte more, to know a longer file */
    unsigned number;
    struct stat what;
    /* a pipe would be waited for, and is never replaced as a whole */
    if (fstat(from, &what) != 0) return strerror(errno);
    if (!S_ISREG(what.st_mode)) return S_ISDIR(what.st_mode) ? strerror(EISDIR) : "it is not a regular file";
    found.length = 0;
    for (;;) {
        int full = found.length == sizeof found.bytes;
        ssize_t got = read(from, full ? &more : found.bytes + found.length, full ? 1 : sizeof found.bytes - found.length);
        if (got < 0 && errno == EINTR) continue;
        if (got < 0) return strerror(errno);
        if (got == 0) break;
        if (full) return maze_refusal_text(MAZE_BAD_LENGTH);
        found.length += (size_t)got;
    }
    number = any_check(&found);
    if (number != MAZE_ACCEPTED) return maze_refusal_text(number);
    *table = found;
    return NULL;
}

static int table_file_lock(int descriptor) {
    struct flock lock;
    memset(&lock, 0, sizeof lock);
    lock.l_type = F_WRLCK;
    lock.l_whence = SEEK_SET;
    return fcntl(descriptor, F_SETLK, &lock) == 0;
}

/* A table in a new file beside the old one, with the old one's rights, locked and on the disk: its descriptor, or -1. The old file is NULL where there is none. */
static int table_file_beside(const struct table_file *file, const struct any_table *table, const struct stat *old, char *name, size_t name_bytes) {
    size_t length = 0;
    int made, locked, kept_errno;
    if ((size_t)snprintf(name, name_bytes, "%s" TABLE_FILE_BESIDE "XXXXXX", file->name) >= name_bytes) {
        errno = ENAMETOOLONG;
        return -1;
    }
    made = mkstemp(name);
    if (made < 0) return -1;
    /* locked first: one that nobody has locked was left behind */
    locked = table_file_lock(made);
    while (locked && length < table->length) {
        ssize_t put = write(made, table->bytes + length, table->length - length);
        if (put < 0 && errno == EINTR) continue;
        if (put <= 0) break;
        length += (size_t)put;
    }
    if (locked && length == table->length) {
        mode_t mask = umask(0);
        umask(mask);
        /* an owner that cannot be kept is the one who writes now */
        if (old && fchown(made, old->st_uid, old->st_gid) != 0) errno = 0;
        if (fchmod(made, old ? old->st_mode & 0777 : 0666 & ~mask) == 0 && fsync(made) == 0) return made;
    }
    kept_errno = errno;
    unlink(name);
    close(made);
    errno = kept_errno;
    return -1;
}

/* The folder of the file. */
static void table_file_folder(const struct table_file *file, char *folder, size_t folder_bytes) {
    const char *slash = strrchr(file->name, '/');
    snprintf(folder, folder_bytes, "%.*s", !slash ? 1 : slash == file->name ? 1 : (int)(slash - file->name), !slash ? "." : file->name);
}

/* Takes away what a process that was stopped in the middle of a save left beside the file, which this process has locked: new files that no process has locked. */
static void table_file_tidy(const struct table_file *file) {
    char folder[sizeof file->name], name[sizeof file->name + 512];
    const char *slash = strrchr(file->name, '/'), *own = slash ? slash + 1 : file->name;
    size_t long_own = strlen(own);
    DIR *entries;
    struct dirent *entry;
    table_file_folder(file, folder, sizeof folder);
    entries = opendir(folder);
    if (!entries) return;
    while ((entry = readdir(entries)) != NULL) {
        int left;
        if (strncmp(entry->d_name, own, long_own) != 0 || strncmp(entry->d_name + long_own, TABLE_FILE_BESIDE, strlen(TABLE_FILE_BESIDE)) != 0 ||
            strlen(entry->d_name) != long_own + TABLE_FILE_BESIDE_BYTES - 1 || (size_t)snprintf(name, sizeof name, "%s/%s", folder, entry->d_name) >= sizeof name)
            continue;
        left = open(name, O_RDWR | O_NONBLOCK | O_NOFOLLOW | O_CLOEXEC);
        if (left < 0) continue;
        if (table_file_lock(left)) unlink(name);
        close(left);
    }
    closedir(entries);
}

/* Brings the folder of the file onto the disk, so that a name that a file took there is kept. Where a file system cannot do that, the name goes there in its own time. */
static void table_file_keep_name(const struct table_file *file) {
    char folder[sizeof file->name];
    int from;
    table_file_folder(file, folder, sizeof folder);
    from = open(folder, O_RDONLY | O_CLOEXEC);
    if (from < 0) return;
    (void)fsync(from);
    close(from);
}

/* Puts a table in the place of the one in the file. Answers 1; or 0 with the file as it was, and `errno` says why. */
static int table_file_save(struct table_file *file, const struct any_table *table) {
    char name[sizeof file->name + TABLE_FILE_BESIDE_BYTES];
    struct stat old;
    int made, kept_errno;
    if (file->lock < 0) {
        errno = EBADF;
        return 0;
    }
    made = table_file_beside(file, table, fstat(file->lock, &old) == 0 ? &old : NULL, name, sizeof name);
    if (made < 0) return 0;
    if (rename(name, file->name) == 0) {
        table_file_keep_name(file);
        /* the lock of the old file goes with it; that of the new one was taken before anybody could open it by its name */
        close(file->lock);
        file->lock = made;
        return 1;
    }
    kept_errno = errno;
    unlink(name);
    close(made);
    errno = kept_errno;
    return 0;
}

/* Makes the file with the table as it is, unless there is one by now. */
static int table_file_make(struct table_file *file, const struct any_table *table) {
    char name[sizeof file->name + TABLE_FILE_BESIDE_BYTES];
    int made = table_file_beside(file, table, NULL, name, sizeof name), kept_errno;
    if (made < 0) return 0;
    /* where a file can have one name alone, as on a FAT disk, two that make it at once are not told apart */
    if (link(name, file->name) == 0 ? unlink(name) == 0 : errno != EEXIST && rename(name, file->name) == 0) {
        table_file_keep_name(file);
        file->lock = made;
        return 1;
    }
    kept_errno = errno;
    unlink(name);
    close(made);
    errno = kept_errno;
    return 0;
}

/* Reads the table of a file for one who looks. */
static enum table_file_answer table_file_look(struct table_file *file, struct any_table *table) {
    int from = open(file->name, O_RDONLY | O_NONBLOCK | O_CLOEXEC);
    const char *wrong = from < 0 ? strerror(errno) : table_file_read(from, table);
    if (from >= 0) close(from);
    return wrong ? table_file_because(file, TABLE_FILE_BAD, wrong) : TABLE_FILE_LOOKS;
}

/* Takes the table of a file; where there is no file, makes one of the table given. */
static enum table_file_answer table_file_open(struct table_file *file, const char *name, struct any_table *table) {
    char *plain = realpath(name, NULL);
    int tries;
    file->lock = -1;
    file->why[0] = '\0';
    if ((size_t)snprintf(file->name, sizeof file->name, "%s", plain ? plain : name) >= sizeof file->name) {
        free(plain);
        return table_file_because(file, TABLE_FILE_BAD, strerror(ENAMETOOLONG));
    }
    free(plain);
    /* another process may make the file, or replace it, between two steps; then from the first step again */
    for (tries = 0; tries < 100; tries++) {
        struct stat open_one, named;
        struct flock other;
        char name_beside[sizeof file->name + TABLE_FILE_BESIDE_BYTES];
        const char *wrong;
        int beside, from = open(file->name, O_RDWR | O_NONBLOCK | O_CLOEXEC);
        if (from < 0 && errno == ENOENT) {
            if (table_file_make(file, table)) return TABLE_FILE_KEPT;
            /* ENOENT: the new file was taken for one left behind, by a process that has made the table by now; or there is no such folder */
            if (errno != EEXIST && (errno != ENOENT || tries > 2)) return table_file_because(file, TABLE_FILE_BAD, strerror(errno));
            if (lstat(file->name, &named) == 0 && S_ISLNK(named.st_mode) && stat(file->name, &named) != 0)
                return table_file_because(file, TABLE_FILE_BAD, "a symbolic link that leads nowhere");
            continue;
        }
        if (from < 0) {
            int because = errno;
            if (table_file_look(file, table) != TABLE_FILE_LOOKS) return TABLE_FILE_BAD;
            return table_file_because(file, TABLE_FILE_LOOKS, strerror(because));
        }
        if (!table_file_lock(from)) {
            int because = errno;
            memset(&other, 0, sizeof other);
            other.l_type = F_WRLCK;
            other.l_whence = SEEK_SET;
            if (fcntl(from, F_GETLK, &other) == 0 && other.l_type != F_UNLCK)
                snprintf(file->why, sizeof file->why, "process %ld has it", (long)other.l_pid);
            else snprintf(file->why, sizeof file->why, "it cannot be locked (%s)", strerror(because));
            wrong = table_file_read(from, table);
            close(from);
            return wrong ? table_file_because(file, TABLE_FILE_BAD, wrong) : TABLE_FILE_LOOKS;
        }
        if (fstat(from, &open_one) != 0 || stat(file->name, &named) != 0 || open_one.st_dev != named.st_dev || open_one.st_ino != named.st_ino) {
            close(from);
            continue;
        }
        wrong = table_file_read(from, table);
        if (wrong) {
            close(from);
            return table_file_because(file, TABLE_FILE_BAD, wrong);
        }
        /* whether there is room and right to replace it is tried now, and not at the end of a night */
        beside = table_file_beside(file, table, &open_one, name_beside, sizeof name_beside);
        if (beside < 0) {
            int because = errno;
            close(from);
            return table_file_because(file, TABLE_FILE_LOOKS, strerror(because));
        }
        unlink(name_beside);
        close(beside);
        table_file_tidy(file);
        file->lock = from;
        return TABLE_FILE_KEPT;
    }
    return table_file_because(file, TABLE_FILE_BAD, "other processes replace it all the time");
}

static void table_file_close(struct table_file *file) {
    if (file->lock >= 0) close(file->lock);
    file->lock = -1;
}

#endif
