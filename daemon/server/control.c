/* What operators ask; see control.h.
 * Each command is a row of one table: its word, the words behind it, and a function that puts the text of its answer.
 * An audit of many places is told in parts, as its reader reads. */
#include "control.h"
#include "audit.h"
#include <corosync/corotypes.h>
#include <stdarg.h>
#include <stdio.h>
#include <stdlib.h>
#include <string.h>
#include <unistd.h>

enum { TEXT_PART = 32 << 10 };

static struct ring *ring;
static bool stopping;

void control_open(struct ring *the_ring) {
    ring = the_ring;
    stopping = false;
}

bool control_stop(void) { return stopping; }

/* ---- text ---- */

static void put(struct bytes *to, const char *format, ...) __attribute__((format(printf, 2, 3)));

static void put(struct bytes *to, const char *format, ...) {
    char line[1024];
    va_list rest;
    va_start(rest, format);
    int len = vsnprintf(line, sizeof line, format, rest);
    va_end(rest);
    if (len < 0) return;
    size_t held = (size_t)len < sizeof line ? (size_t)len : sizeof line - 1;
    uint8_t *at = bytes_room(to, held);
    if (!at) return;
    memcpy(at, line, held);
    to->end += held;
}

/* A group's name: printable bytes as they are, others, '%' and blanks as %XX. */
static void put_name(struct bytes *to, const struct name *code) {
    struct name plain = {0};
    name_plain(code, &plain);
    if (plain.len == 0) put(to, "%%");
    for (uint32_t k = 0; k < plain.len; k++) {
        bool shown = plain.at[k] > 0x20 && plain.at[k] < 0x7F && plain.at[k] != '%';
        if (shown) put(to, "%c", plain.at[k]);
        else put(to, "%%%02X", plain.at[k]);
    }
}

static int hex_value(char c) {
    if (c >= '0' && c <= '9') return c - '0';
    if (c >= 'a' && c <= 'f') return c - 'a' + 10;
    return c >= 'A' && c <= 'F' ? c - 'A' + 10 : -1;
}

/* The node's name for one as put_name puts it. A status of the interface. */
static uint32_t read_name(const char *word, struct name *code) {
    uint8_t plain[MOST_NAME];
    size_t len = 0;
    for (const char *at = strcmp(word, "%") ? word : ""; *at; at++) {
        if (len == sizeof plain) return CS_ERR_NAME_TOO_LONG;
        bool coded = at[0] == '%' && hex_value(at[1]) >= 0 && hex_value(at[2]) >= 0;
        plain[len++] = coded ? (uint8_t)(hex_value(at[1]) << 4 | hex_value(at[2])) : (uint8_t)*at;
        if (coded) at += 2;
    }
    return name_code(plain, len, NAME_LOOK, code) ? CS_OK : CS_ERR_NOT_EXIST;
}

static void tell_text(struct client *c, struct bytes *text) {
    while (bytes_held(text) > 0) {
        uint32_t len = bytes_held(text) < TEXT_PART ? (uint32_t)bytes_held(text) : TEXT_PART;
        uint8_t *out = tell(c, TELL_TEXT, 0, sizeof len + len);
        if (!out) return;
        memcpy(out, &len, sizeof len);
        memcpy(out + sizeof len, text->at + text->begin, len);
        bytes_drop(text, len);
    }
}

/* ---- what is shown ---- */

static unsigned count_groups(void) {
    size_t count, step;
    unsigned groups = 0;
    struct seat *seats = seats_of(&ring->nodes[0], &count);
    if (seats) seats_by_group(seats, count);
    for (size_t k = 0; seats && k < count; k += step, groups++) step = seats_in_group(seats + k, count - k);
    free(seats);
    return groups;
}

static uint32_t show_status(struct client *c, const char *rest, struct bytes *to) {
    const struct gate *gate = &ring->gate;
    const struct node *first = &ring->nodes[0];
    unsigned clients = 0;
    (void)c, (void)rest;
    for (unsigned k = 0; k < ring->count; k++) clients += ring->nodes[k].count;
    put(to, "ring %u nodes %u state %s\n", ring->number, ring->count, ring->ending ? "ending" : "running");
    put(to, "places %u carried %u left %u before %llu\n", first->delivered, ring->carried, ring_places_left(ring),
        (unsigned long long)ring->delivered_before);
    put(to, "renewals %llu pause_us mean %llu worst %llu\n", (unsigned long long)ring->renewals,
        (unsigned long long)(ring->renewals ? ring->all_pauses / ring->renewals : 0), (unsigned long long)ring->worst_pause);
    put(to, "clients %u groups %u long_names %u\n", clients, count_groups(), name_count());
    put(to, "frames %llu lost %llu repeated %llu visits %llu lose %u repeat %u\n", (unsigned long long)gate->frames,
        (unsigned long long)gate->lost, (unsigned long long)gate->repeated, (unsigned long long)gate->visits, gate->lose, gate->repeat);
    for (unsigned k = 0; k < ring->count; k++)
        if (gate->held[k]) put(to, "held %u\n", k + 1);
    for (unsigned a = 0; a < ring->count; a++)
        for (unsigned b = a + 1; b < ring->count; b++)
            if (gate->cut[a][b]) put(to, "cut %u %u\n", a + 1, b + 1);
    return CS_OK;
}

static uint32_t show_groups(struct client *c, const char *rest, struct bytes *to) {
    size_t count, step;
    struct seat *seats = seats_of(&ring->nodes[0], &count);
    (void)c, (void)rest;
    if (!seats) return CS_ERR_NO_MEMORY;
    seats_by_group(seats, count);
    for (size_t k = 0; k < count; k += step) {
        step = seats_in_group(seats + k, count - k);
        put(to, "group ");
        put_name(to, &seats[k].name);
        put(to, " members %zu\n", step);
    }
    free(seats);
    return CS_OK;
}

static uint32_t show_members(struct client *c, const char *rest, struct bytes *to) {
    struct name code;
    size_t count;
    uint32_t status = read_name(rest, &code);
    (void)c;
    if (status != CS_OK) return status;
    struct seat *seats = seats_of(&ring->nodes[0], &count);
    if (!seats) return CS_ERR_NO_MEMORY;
    for (const struct seat *seat = seats; seat < seats + count; seat++)
        if (name_same(&seat->name, &code))
            put(to, "member node %u pid %u uid %u gid %u since %u\n", seat->join.node, seat->join.pid, seat->join.uid, seat->join.gid,
                seat->place);
    free(seats);
    return CS_OK;
}

static uint32_t show_rules(struct client *c, const char *rest, struct bytes *to) {
    static const char *const effects[] = {"?", "allow", "deny"}, *const rights[] = {"?", "join", "send", "list", "edit"};
    struct name code;
    cpgring_rule rule;
    uint32_t status = read_name(rest, &code);
    (void)c;
    if (status != CS_OK) return status;
    for (size_t k = 0; cpgring_table(&ring->nodes[0].ring, code.at, code.len, k, &rule) == CPGRING_OK; k++) {
        put(to, "rule %zu ring %u id %u %s %s", k, ring->number, rule.id, rule.effect < 3 ? effects[rule.effect] : "?",
            rule.right < 5 ? rights[rule.right] : "?");
        if (rule.has_uid) put(to, " uid=%u", rule.uid);
        if (rule.has_gid) put(to, " gid=%u", rule.gid);
        if (rule.has_node) put(to, " node=%u", rule.node);
        put(to, "\n");
    }
    return CS_OK;
}

static void show_client(const struct client *it, const struct seat *seat, struct bytes *to) {
    put(to, "client node %u connection %u pid %u uid %u gid %u asks %llu messages %llu unread %llu group ", it->node->setup.node, it->conn,
        it->pid, it->uid, it->gid, (unsigned long long)it->heard_asks, (unsigned long long)it->told_messages,
        (unsigned long long)it->counted);
    if (seat) put_name(to, &seat->name);
    else put(to, "-");
    put(to, "\n");
}

static uint32_t show_clients(struct client *c, const char *rest, struct bytes *to) {
    (void)c, (void)rest;
    for (unsigned k = 0; k < ring->count; k++) {
        size_t count;
        struct seat *seats = seats_of(&ring->nodes[k], &count);
        if (!seats) return CS_ERR_NO_MEMORY;
        seats_by_connection(seats, count);
        for (const struct client *it = ring->nodes[k].clients; it; it = it->next)
            show_client(it, it->conn ? seat_of(seats, count, k + 1, it->conn) : NULL, to);
        free(seats);
    }
    return CS_OK;
}

static uint32_t show_left(struct client *c, const char *rest, struct bytes *to) {
    (void)c, (void)rest;
    put(to, "%u\n", ring_places_left(ring));
    return CS_OK;
}

/* ---- what is done ---- */

/* A node's number from 1, as one from 0; SIZE_MAX where it is none. */
static size_t node_in(const char **at) {
    char *end;
    unsigned long number = strtoul(*at, &end, 10);
    if (end == *at || number < 1 || number > ring->count) return SIZE_MAX;
    *at = end;
    return number - 1;
}

static uint32_t hold(const char *rest, bool held) {
    size_t node = node_in(&rest);
    if (node == SIZE_MAX || *rest) return CS_ERR_INVALID_PARAM;
    if (held) gate_hold(&ring->gate, (unsigned)node);
    else gate_let(&ring->gate, (unsigned)node);
    return CS_OK;
}

static uint32_t do_hold(struct client *c, const char *rest, struct bytes *to) {
    (void)c, (void)to;
    return hold(rest, true);
}

static uint32_t do_let(struct client *c, const char *rest, struct bytes *to) {
    (void)c, (void)to;
    return hold(rest, false);
}

static uint32_t cut(const char *rest, bool is_cut) {
    size_t a = node_in(&rest), b = node_in(&rest);
    if (a == SIZE_MAX || b == SIZE_MAX || a == b || *rest) return CS_ERR_INVALID_PARAM;
    ring->gate.cut[a][b] = ring->gate.cut[b][a] = is_cut;
    return CS_OK;
}

static uint32_t do_cut(struct client *c, const char *rest, struct bytes *to) {
    (void)c, (void)to;
    return cut(rest, true);
}

static uint32_t do_mend(struct client *c, const char *rest, struct bytes *to) {
    (void)c, (void)to;
    return cut(rest, false);
}

static uint32_t do_fates(struct client *c, const char *rest, struct bytes *to) {
    unsigned lose = ring->gate.lose, repeat = ring->gate.repeat;
    unsigned long long seed = 0;
    bool seeded = false;
    int used;
    (void)c, (void)to;
    while (*rest) {
        if (sscanf(rest, "lose=%3u%n", &lose, &used) == 1 || sscanf(rest, "repeat=%3u%n", &repeat, &used) == 1) rest += used;
        else if (sscanf(rest, "seed=%llu%n", &seed, &used) == 1) {
            seeded = true;
            rest += used;
        } else return CS_ERR_INVALID_PARAM;
        rest += strspn(rest, " ");
    }
    if (lose > 90 || repeat > 90 || lose + repeat > 100) return CS_ERR_INVALID_PARAM;
    ring->gate.lose = lose;
    ring->gate.repeat = repeat;
    if (seeded) ring->gate.random = seed;
    return CS_OK;
}

static uint32_t do_renew(struct client *c, const char *rest, struct bytes *to) {
    (void)c, (void)rest, (void)to;
    ring->end_wanted = true;
    return CS_OK;
}

static uint32_t do_stop(struct client *c, const char *rest, struct bytes *to) {
    (void)c, (void)rest, (void)to;
    stopping = true;
    return CS_OK;
}

/* ---- audits ---- */

static uint32_t do_audit(struct client *c, const char *rest, struct bytes *to) {
    unsigned first = 1, last = ring->nodes[0].delivered;
    int used = 0;
    (void)to;
    if (!strcmp(rest, "all")) used = 3;
    else if (sscanf(rest, "%9u-%9u%n", &first, &last, &used) != 2 && sscanf(rest, "%9u%n", &first, &used) == 1) last = first;
    if (used == 0 || rest[used] || first < 1) return CS_ERR_INVALID_PARAM;
    if (last > ring->nodes[0].delivered) return CS_ERR_NOT_EXIST;
    c->auditing = true;
    c->audit_next = first;
    c->audit_last = last;
    return CS_OK;
}

void control_go_on(struct client *c) {
    struct bytes text = {0};
    uint32_t status = CS_OK;
    while (c->audit_next <= c->audit_last && status == CS_OK && out_held(&c->out) <= limits.room) {
        if (!audit_line(&ring->nodes[0], c->audit_next++, &text)) status = CS_ERR_NO_MEMORY;
        if (bytes_held(&text) >= TEXT_PART || c->audit_next > c->audit_last) tell_text(c, &text);
    }
    tell_text(c, &text);
    bytes_free(&text);
    if (c->audit_next <= c->audit_last && status == CS_OK) return;
    answer(c, ASK_CONTROL, c->audit_tag, status);
    c->auditing = false;
}

void control_ring_ends(struct ring *the_ring) {
    for (unsigned k = 0; k < the_ring->count; k++)
        for (struct client *c = the_ring->nodes[k].clients; c; c = c->next) {
            if (!c->auditing) continue;
            answer(c, ASK_CONTROL, c->audit_tag, CS_ERR_INTERRUPT);
            c->auditing = false;
        }
}

/* ---- commands ---- */

static const struct command {
    const char *word;
    bool has_rest; /* words stand behind it */
    uint32_t (*go)(struct client *c, const char *rest, struct bytes *to);
} commands[] = {
    {"status", false, show_status},   {"groups", false, show_groups}, {"members", true, show_members}, {"rules", true, show_rules},
    {"clients", false, show_clients}, {"left", false, show_left},     {"hold", true, do_hold},         {"let", true, do_let},
    {"cut", true, do_cut},            {"mend", true, do_mend},        {"fates", true, do_fates},       {"renew", false, do_renew},
    {"stop", false, do_stop},         {"audit", true, do_audit},
};

static bool is_operator(const struct client *c) { return c->uid == 0 || c->uid == geteuid(); }

static uint32_t perform(struct client *c, const char *line, struct bytes *to) {
    size_t len = strcspn(line, " ");
    for (unsigned k = 0; k < sizeof commands / sizeof *commands; k++) {
        const struct command *it = &commands[k];
        if (strlen(it->word) != len || memcmp(it->word, line, len)) continue;
        if (it->has_rest != (line[len] == ' ')) return CS_ERR_INVALID_PARAM;
        return it->go(c, line[len] ? line + len + 1 : "", to);
    }
    return CS_ERR_NOT_SUPPORTED;
}

void control_hear(struct client *c, const struct head *head, const uint8_t *body) {
    char line[512];
    struct bytes text = {0};
    uint32_t status = CS_ERR_ACCESS;
    if (!is_operator(c)) status = CS_ERR_ACCESS;
    else if (head->len >= sizeof line || memchr(body, 0, head->len)) status = CS_ERR_INVALID_PARAM;
    else {
        memcpy(line, body, head->len);
        line[head->len] = 0;
        status = perform(c, line, &text);
    }
    tell_text(c, &text);
    bytes_free(&text);
    c->audit_tag = head->tag;
    if (c->auditing) control_go_on(c);
    else answer(c, ASK_CONTROL, head->tag, status);
}
