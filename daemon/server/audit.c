/* The audit; see audit.h. The lines are those of `cpgring --json`, as far as the node's record has the fields: it has the
 * number of members and not their list, and no rule of an insert.
 * A file grows with the ring, so that nothing of it is left to be done at the ring's end. */
#include "audit.h"
#include "log.h"
#include <errno.h>
#include <fcntl.h>
#include <stdio.h>
#include <stdlib.h>
#include <string.h>
#include <unistd.h>

enum { MOST_LINE = 512 + 6 * MOST_NAME + 8 * MOST_PAYLOAD, WRITE_AT_ONCE = 64 << 10 };

static struct {
    int fd;
    uint32_t written; /* places of the ring that are in the file or in `lines` */
    struct bytes lines;
    off_t length; /* of whole lines in the file */
    char path[4096];
} file = {.fd = -1};

/* ---- lines ---- */

static char *put_string(char *at, const uint8_t *bytes, size_t len) {
    static const char hex[] = "0123456789abcdef";
    *at++ = '"';
    for (size_t k = 0; k < len; k++) {
        uint8_t b = bytes[k];
        if (b >= 0x20 && b <= 0x7E && b != '"' && b != '\\') *at++ = (char)b;
        else at += sprintf(at, "\\u00%c%c", hex[b >> 4], hex[b & 15]);
    }
    *at++ = '"';
    return at;
}

static char *put_message(char *at, const uint8_t *bytes, size_t len) {
    bool high = false;
    at += sprintf(at, ",\"message\":");
    at = put_string(at, bytes, len);
    for (size_t k = 0; k < len && !high; k++) high = bytes[k] > 0x7F;
    if (!high) return at;
    at += sprintf(at, ",\"hex\":\"");
    for (size_t k = 0; k < len; k++) at += sprintf(at, "%02x", bytes[k]);
    *at++ = '"';
    return at;
}

static char *put_verdict(char *at, const cpgring_record *r) {
    static const char *const bases[] = {"?", "rule", "default", "root", "free"};
    static const char *const reasons[] = {"?",     "rule", "default",  "closed",    "joined",
                                          "twice", "full", "position", "tablefull", "absent"};
    const char *basis = r->basis < 5 ? bases[r->basis] : "?", *reason = r->verdict < 10 ? reasons[r->verdict] : "?";
    if (r->verdict == CPGRING_ALLOWED) at += sprintf(at, ",\"verdict\":\"allowed\",\"by\":\"%s\"", basis);
    else at += sprintf(at, ",\"verdict\":\"denied\",\"reason\":\"%s\"", reason);
    if (r->basis == CPGRING_ON_RULE || r->verdict == CPGRING_BY_RULE) at += sprintf(at, ",\"rule\":%u", r->rule);
    return at;
}

bool audit_line(struct node *node, uint32_t place, struct bytes *to) {
    static const char *const calls[] = {"?", "join", "leave", "send", "insert", "remove", "gone"};
    static uint8_t message[MOST_PAYLOAD];
    struct name code = {0}, plain = {0};
    cpgring_record r;
    char *begin = (char *)bytes_room(to, MOST_LINE), *at = begin;
    if (!begin || cpgring_audit(&node->ring, place, &r) != CPGRING_OK) return false;
    at += sprintf(at, "{\"kind\":\"record\",\"ring\":%u,\"place\":%u,\"node\":%u,\"connection\":%u", node->setup.ring, place, r.node, r.conn);
    at += sprintf(at, ",\"pid\":%u,\"uid\":%u,\"gid\":%u,\"call\":\"%s\"", r.pid, r.uid, r.gid, r.call < 7 ? calls[r.call] : "?");
    if (r.call == 3 && (r.message_len == 0 || cpgring_audit_message(&node->ring, place, message, sizeof message) == CPGRING_OK))
        at = put_message(at, message, r.message_len);
    at = put_verdict(at, &r);
    if (r.group_len && cpgring_audit_group(&node->ring, place, code.at, sizeof code.at) == CPGRING_OK) {
        code.len = (uint32_t)r.group_len;
        name_plain(&code, &plain);
        at += sprintf(at, ",\"group\":");
        at = put_string(at, plain.at, plain.len);
        at += sprintf(at, ",\"member_count\":%zu", r.members);
    }
    at += sprintf(at, "}\n");
    to->end += (size_t)(at - begin);
    return true;
}

/* ---- files ---- */

static void give_up(const char *what) {
    log_line(LOG_ERROR, "audit %s: %s: the audit of this ring ends at place %u", file.path, what, file.written);
    if (file.fd >= 0) {
        if (ftruncate(file.fd, file.length) != 0) log_line(LOG_WARNING, "audit %s: its last line may be cut", file.path);
        close(file.fd);
    }
    file.fd = -1;
    bytes_free(&file.lines);
}

static void write_lines(void) {
    while (file.fd >= 0 && bytes_held(&file.lines) > 0) {
        ssize_t put = write(file.fd, file.lines.at + file.lines.begin, bytes_held(&file.lines));
        if (put < 0 && errno == EINTR) continue;
        if (put < 0) {
            give_up(strerror(errno));
            return;
        }
        bytes_drop(&file.lines, (size_t)put);
        if (bytes_held(&file.lines) == 0) file.length = lseek(file.fd, 0, SEEK_CUR);
    }
}

void audit_ring_begins(struct ring *ring) {
    if (!ring->options->audit) return;
    snprintf(file.path, sizeof file.path, "%s/ring-%u.jsonl", ring->options->audit, ring->number);
    file.fd = open(file.path, O_WRONLY | O_CREAT | O_TRUNC | O_CLOEXEC, 0640);
    file.written = 0;
    file.length = 0;
    if (file.fd < 0) give_up(strerror(errno));
}

void audit_follow(struct ring *ring, bool all) {
    struct node *node = &ring->nodes[0];
    while (file.fd >= 0 && file.written < node->delivered) {
        if (!audit_line(node, file.written + 1, &file.lines)) {
            give_up("no memory");
            return;
        }
        file.written++;
        if (bytes_held(&file.lines) >= WRITE_AT_ONCE) write_lines();
    }
    if (all) write_lines();
}

void audit_ring_ends(struct ring *ring) {
    audit_follow(ring, true);
    if (file.fd >= 0 && close(file.fd) != 0) log_line(LOG_ERROR, "audit %s: %s", file.path, strerror(errno));
    file.fd = -1;
    bytes_free(&file.lines);
}
