/* Who is let in; see admission.h.
 * Each file is tried alone, by a node that is opened over it, so that a fault has its file and line.
 * Where no conf is named and the default is missing, the daemon's own user is let in, beside user 0 and group 0. */
#include "admission.h"
#include "log.h"
#include <cpgring.h>
#include <dirent.h>
#include <errno.h>
#include <grp.h>
#include <pwd.h>
#include <stdio.h>
#include <stdlib.h>
#include <string.h>
#include <unistd.h>

#define DEFAULT_CONF "/etc/corosync/corosync.conf"
enum { MOST_CONF = 16 << 20 };

/* ---- names that the texts have ---- */

static bool is_number(const char *word) { return *word && strspn(word, "0123456789") == strlen(word); }

static bool is_word(const char *word) {
    for (const char *at = word; *at; at++)
        if (*at < 0x21 || *at > 0x7E) return false;
    return *word != 0;
}

/* The value of a line `KEY: VALUE` of that key. */
static const char *value_of(char *line, const char *key) {
    line += strspn(line, " \t\r");
    size_t len = strlen(key);
    if (strncmp(line, key, len)) return NULL;
    line += len + strspn(line + len, " \t");
    if (*line != ':') return NULL;
    line += 1 + strspn(line + 1, " \t");
    line[strcspn(line, " \t\r\n")] = 0;
    return line;
}

static void put_names(FILE *to, const char *conf, size_t len) {
    for (const char *at = conf, *end; at < conf + len; at = end + 1) {
        char line[512], again[512];
        if (!(end = memchr(at, '\n', (size_t)(conf + len - at)))) end = conf + len;
        if ((size_t)(end - at) >= sizeof line) continue;
        memcpy(line, at, (size_t)(end - at));
        line[end - at] = 0;
        memcpy(again, line, sizeof again);
        const char *user = value_of(line, "uid"), *group = value_of(again, "gid");
        struct passwd *p = user && is_word(user) && !is_number(user) ? getpwnam(user) : NULL;
        struct group *g = group && is_word(group) && !is_number(group) ? getgrnam(group) : NULL;
        if (p) fprintf(to, "user %s %u\n", user, p->pw_uid);
        if (g) fprintf(to, "group %s %u\n", group, g->gr_gid);
    }
}

static bool make_names(struct admission *a) {
    FILE *to = open_memstream(&a->names, &a->names_len);
    if (!to) return false;
    put_names(to, a->conf, a->conf_len);
    return fclose(to) == 0;
}

/* ---- files ---- */

static const char *file_reason(uint32_t status) {
    switch (status) {
    case CPGRING_BAD_LINE: return "a line of no shape that is read";
    case CPGRING_UNOPENED: return "a section is closed where none is open";
    case CPGRING_UNCLOSED: return "a section is not closed";
    case CPGRING_BAD_ITEM: return "a key that a uidgid section does not have";
    case CPGRING_BAD_VALUE: return "a value that is empty, or a number past its range";
    case CPGRING_UNKNOWN_NAME: return "a user or group that this machine does not know";
    default: return cpgring_refusal_text(status);
    }
}

/* Opens a node over the text, to see whether it can be read. */
static bool is_readable(const char *path, const char *text, size_t len) {
    struct admission alone = {.conf = (char *)text, .conf_len = len};
    cpgring_setup setup = {1, 1, 1, 1, 1};
    cpgring_fault fault = {0, 0};
    cpgring ring = CPGRING_INIT;
    if (!make_names(&alone)) return false;
    uint32_t status =
        cpgring_open_conf(&ring, &setup, (const uint8_t *)alone.names, alone.names_len, (const uint8_t *)text, len, &fault);
    if (status == CPGRING_OK) cpgring_close(&ring);
    else if (fault.line) log_line(LOG_ERROR, "%s:%u: %s", path, fault.line, file_reason(status));
    else log_line(LOG_ERROR, "%s: %s", path, file_reason(status));
    free(alone.names);
    return status == CPGRING_OK;
}

/* Puts a file's text behind what is there, once it was seen to be readable. */
static bool add_file(FILE *to, const char *path) {
    FILE *from = fopen(path, "re");
    char *text = from ? malloc(MOST_CONF + 1) : NULL;
    size_t len = text ? fread(text, 1, MOST_CONF + 1, from) : 0;
    bool good = text && !ferror(from) && len <= MOST_CONF;
    if (!good) log_line(LOG_ERROR, "%s: %s", path, len > MOST_CONF ? "longer than 16 MiB" : strerror(errno));
    if (from) fclose(from);
    good = good && is_readable(path, text, len);
    good = good && fwrite(text, 1, len, to) == len && fputc('\n', to) != EOF;
    free(text);
    return good;
}

static int is_shown(const struct dirent *entry) { return entry->d_name[0] != '.'; }

/* The files of uidgid.d beside the conf, in the order of their names. */
static bool add_folder(FILE *to, const char *conf) {
    char folder[4096], path[8192];
    struct dirent **entries = NULL;
    const char *slash = strrchr(conf, '/');
    snprintf(folder, sizeof folder, "%.*suidgid.d", slash ? (int)(slash + 1 - conf) : 0, conf);
    int count = scandir(folder, &entries, is_shown, alphasort);
    bool good = count >= 0 || errno == ENOENT || errno == ENOTDIR;
    if (!good) log_line(LOG_ERROR, "%s: %s", folder, strerror(errno));
    for (int k = 0; k < count; k++) {
        snprintf(path, sizeof path, "%s/%s", folder, entries[k]->d_name);
        good = good && add_file(to, path);
        free(entries[k]);
    }
    free(entries);
    return good;
}

bool admission_read(const struct options *options, struct admission *a) {
    const char *conf = options->conf ? options->conf : DEFAULT_CONF;
    FILE *to = open_memstream(&a->conf, &a->conf_len);
    bool good = to != NULL;
    if (!options->conf && access(conf, F_OK) != 0) {
        if (good) fprintf(to, "uidgid {\nuid: %u\n}\n", (unsigned)geteuid());
    } else {
        good = good && add_file(to, conf) && add_folder(to, conf);
    }
    if (to && fclose(to) != 0) good = false;
    return good && make_names(a);
}

void admission_free(struct admission *a) {
    free(a->conf);
    free(a->names);
    *a = (struct admission){0};
}
