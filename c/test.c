/* Makes every call of cpgring.h at least once, and compares what it answers with answers that were worked out by hand:
 * two nodes that agree on two joins and a message, a lost frame, a full queue, listings under rules, a ring that turns by
 * itself, messages that are lent, members and their joins, and refusals. */
#include "cpgring.h"
#include "expect.h"

#include <stdlib.h>

/* Nodes, and each frame that one of them sent, numbered from 1 in the order of their sending. */
enum { MOST = 400 };
static cpgring ring[3];
static uint8_t frames[MOST][256];
static size_t lengths[MOST];
static uint32_t routes[MOST];
static unsigned sent;

/* takes over what the node hands over; how many frames there are */
static unsigned collect(unsigned node) {
    unsigned before = sent;
    while (sent + 1 < MOST &&
           cpgring_next(&ring[node], frames[sent + 1], sizeof frames[0], &lengths[sent + 1], &routes[sent + 1]) == CPGRING_OK)
        sent++;
    return sent - before;
}

/* opens the nodes of a ring that lets in user 7, and has the last one make the first token, which is frame 1 */
static void begin(unsigned nodes, unsigned places) {
    const uint32_t users[] = {7, 8}, groups[] = {0};
    cpgring_setup setup = {1, (uint8_t)nodes, 0, places, 1000};
    sent = 0;
    for (unsigned k = 1; k <= nodes; k++) {
        cpgring closed = CPGRING_INIT;
        ring[k] = closed;
        setup.node = (uint8_t)k;
        IS(cpgring_open(&ring[k], &setup, users, 2, groups, 0), CPGRING_OK);
    }
    IS(cpgring_timer(&ring[nodes]), CPGRING_OK);
    IS(cpgring_next(&ring[nodes], frames[1], 24, &lengths[1], &routes[1]), CPGRING_SPACE);
    IS(lengths[1], 25);
    IS(collect(nodes), 1);
    IS(routes[1], CPGRING_TO_NEXT);
    IS(lengths[1], 25);
}

static void end(unsigned nodes) {
    for (unsigned k = 1; k <= nodes; k++) IS(cpgring_close(&ring[k]), CPGRING_OK);
}

/* frame `number` reaches the node; how many it sends */
static unsigned reach(unsigned node, unsigned number) {
    uint32_t status = cpgring_frame(&ring[node], frames[number], lengths[number]);
    IS(status, CPGRING_OK);
    return collect(node);
}

static uint16_t connect_as(unsigned node, uint32_t pid, uint32_t uid, uint32_t gid) {
    uint16_t conn = 0;
    IS(cpgring_connect(&ring[node], pid, uid, gid, &conn), CPGRING_OK);
    return conn;
}

static void deliver(unsigned node, uint32_t wanted) {
    uint32_t place = 0;
    IS(cpgring_deliver(&ring[node], &place), CPGRING_OK);
    IS(place, wanted);
}

static void deliver_none(unsigned node) {
    uint32_t place = 0;
    IS(cpgring_deliver(&ring[node], &place), CPGRING_NONE);
}

static void is_verdict(unsigned node, uint16_t conn, uint32_t place, uint32_t verdict, uint32_t basis, uint32_t rule) {
    cpgring_event event;
    IS(cpgring_take(&ring[node], conn, &event), CPGRING_OK);
    IS(event.kind, CPGRING_VERDICT);
    IS(event.place, place);
    IS(event.verdict, verdict);
    IS(event.basis, basis);
    IS(event.rule, rule);
    IS(event.group_len, 0);
}

/* a change of `db` that a process of that node and pid joined by */
static void is_join(unsigned node, uint16_t conn, uint32_t place, size_t members, uint32_t by_node, uint32_t by_pid) {
    cpgring_event event;
    cpgring_process process;
    uint8_t group[CPGRING_MOST_GROUP];
    IS(cpgring_take(&ring[node], conn, &event), CPGRING_OK);
    IS(event.kind, CPGRING_CHANGE);
    IS(event.place, place);
    IS(event.members, members);
    IS(event.left, 0);
    IS(event.joined, 1);
    IS(cpgring_group(&ring[node], group, event.group_len - 1), CPGRING_SPACE);
    IS(cpgring_group(&ring[node], group, event.group_len), CPGRING_OK);
    TEXT(group, event.group_len, "db");
    IS(cpgring_joined(&ring[node], 0, &process), CPGRING_OK);
    IS(process.node, by_node);
    IS(process.pid, by_pid);
    IS(process.cause, CPGRING_CAME);
    IS(cpgring_joined(&ring[node], 1, &process), CPGRING_NONE);
    IS(cpgring_left(&ring[node], 0, &process), CPGRING_NONE);
    IS(cpgring_member(&ring[node], members - 1, &process), CPGRING_OK);
    IS(process.node, by_node);
    IS(process.conn, 1);
    IS(process.pid, by_pid);
    IS(process.cause, 0);
    IS(cpgring_member(&ring[node], members, &process), CPGRING_NONE);
}

static void is_message(unsigned node, uint16_t conn, uint32_t place, const char *text) {
    cpgring_event event;
    uint8_t message[CPGRING_MOST_MESSAGE];
    IS(cpgring_take(&ring[node], conn, &event), CPGRING_OK);
    IS(event.kind, CPGRING_MESSAGE);
    IS(event.place, place);
    IS(event.node, 1);
    IS(event.pid, 40);
    IS(cpgring_message(&ring[node], message, event.message_len - 1), CPGRING_SPACE);
    IS(cpgring_message(&ring[node], message, sizeof message), CPGRING_OK);
    TEXT(message, event.message_len, text);
}

static void is_end(unsigned node, uint16_t conn) {
    cpgring_event event;
    IS(cpgring_take(&ring[node], conn, &event), CPGRING_NONE);
}

/* Two nodes agree on two joins and a message; then one leaves, and the other's connection ends. */
static void two_nodes(void) {
    cpgring_event event;
    cpgring_process process;
    uint32_t place = 0;
    begin(2, 100);
    IS(connect_as(1, 40, 7, 100), 1);
    IS(connect_as(2, 50, 7, 100), 1);
    IS(cpgring_join(&ring[1], 1, BYTES("db")), CPGRING_OK);
    IS(cpgring_join(&ring[2], 1, BYTES("db")), CPGRING_OK);
    IS(reach(1, 1), 2);
    IS(routes[2], CPGRING_TO_ALL);
    IS(routes[3], CPGRING_TO_NEXT);
    IS(reach(2, 2), 0);
    IS(reach(2, 3), 2);
    IS(reach(1, 4), 0);
    for (unsigned k = 1; k <= 2; k++) deliver(k, 1), deliver(k, 2);
    IS(cpgring_send(&ring[1], 1, BYTES("hi")), CPGRING_OK);
    IS(reach(1, 5), 2);
    IS(reach(2, 6), 0);
    deliver(1, 3), deliver(2, 3), deliver_none(2);
    is_verdict(1, 1, 1, CPGRING_ALLOWED, CPGRING_ON_DEFAULT, 0);
    is_join(1, 1, 1, 1, 1, 40);
    is_join(1, 1, 2, 2, 2, 50);
    is_verdict(1, 1, 3, CPGRING_ALLOWED, CPGRING_ON_DEFAULT, 0);
    is_message(1, 1, 3, "hi");
    is_end(1, 1);
    is_verdict(2, 1, 2, CPGRING_ALLOWED, CPGRING_ON_DEFAULT, 0);
    is_join(2, 1, 2, 2, 2, 50);
    is_message(2, 1, 3, "hi");
    is_end(2, 1);
    IS(cpgring_frame(&ring[2], frames[3], lengths[3]), CPGRING_STALE);
    IS(cpgring_frame(&ring[1], frames[3], lengths[3]), CPGRING_NOT_MINE);
    IS(cpgring_delivered(&ring[1], &place), CPGRING_OK);
    IS(place, 3);

    IS(cpgring_leave(&ring[2], 1), CPGRING_OK);
    IS(cpgring_disconnect(&ring[1], 1), CPGRING_OK);
    IS(cpgring_leave(&ring[1], 1), CPGRING_NO_CONNECTION);
    IS(reach(2, 7), 2);
    IS(reach(1, 8), 0);
    IS(reach(1, 9), 2);
    deliver(1, 4), deliver(1, 5);
    IS(reach(2, 10), 0);
    deliver(2, 4), deliver(2, 5);
    is_verdict(2, 1, 4, CPGRING_ALLOWED, CPGRING_ON_NOTHING, 0);
    IS(cpgring_take(&ring[2], 1, &event), CPGRING_OK);
    IS(event.kind, CPGRING_CHANGE);
    IS(event.members, 1);
    IS(cpgring_left(&ring[2], 0, &process), CPGRING_OK);
    IS(process.pid, 50);
    IS(process.cause, CPGRING_LEFT);
    is_end(2, 1);
    end(2);
}

/* A packet is lost, asked for by the token, and sent again; then the safe mark follows. */
static void lost_frame(void) {
    uint32_t place = 9;
    begin(2, 100);
    connect_as(1, 40, 7, 100);
    IS(cpgring_join(&ring[1], 1, BYTES("db")), CPGRING_OK);
    IS(cpgring_send(&ring[1], 1, BYTES("hi")), CPGRING_OK);
    IS(reach(1, 1), 3);
    IS(reach(2, 3), 0);
    deliver_none(2);
    IS(reach(2, 4), 1);
    /* token hop 2 seq 2 aru 0 id 2 rtr 1 */
    static const uint8_t asks[] = {0x43, 2, 2, 0, 0, 0, 1, 0, 0, 0, 0, 0, 0, 0, 2, 0, 0, 0, 2, 0, 0, 0, 0, 2, 1, 0, 0, 0, 1};
    IS(lengths[5], sizeof asks);
    IS(memcmp(frames[5], asks, sizeof asks), 0);
    IS(reach(1, 5), 2);
    IS(reach(2, 6), 0);
    deliver(2, 1), deliver(2, 2), deliver_none(2);
    IS(reach(2, 7), 1);
    for (unsigned k = 1; k <= 2; k++) {
        IS(cpgring_safe(&ring[k], &place), CPGRING_OK);
        IS(place, 0);
    }
    IS(reach(1, 8), 1);
    IS(reach(2, 9), 1);
    IS(cpgring_safe(&ring[2], &place), CPGRING_OK);
    IS(place, 2);
    /* the last token again, byte for byte */
    IS(cpgring_timer(&ring[2]), CPGRING_OK);
    IS(cpgring_timer(&ring[2]), CPGRING_BUSY);
    IS(cpgring_frame(&ring[2], frames[1], lengths[1]), CPGRING_BUSY);
    IS(collect(2), 1);
    IS(lengths[11], lengths[10]);
    IS(memcmp(frames[11], frames[10], lengths[10]), 0);
    end(2);
}

/* 256 calls wait, and no more; the connection's end finds its place all the same. */
static void full_queue(void) {
    cpgring_record record;
    size_t count = 0;
    uint32_t places = 9;
    uint64_t hops = 9;
    begin(1, 1000);
    IS(cpgring_reached(&ring[1], &places, &hops), CPGRING_OK);
    IS(places, 0);
    IS(hops, 0);
    connect_as(1, 1, 7, 7);
    for (unsigned k = 0; k < 256; k++) IS(cpgring_leave(&ring[1], 1), CPGRING_OK);
    IS(cpgring_leave(&ring[1], 1), CPGRING_QUEUE_FULL);
    IS(cpgring_disconnect(&ring[1], 1), CPGRING_OK);
    IS(cpgring_leave(&ring[1], 1), CPGRING_NO_CONNECTION);
    IS(cpgring_waiting(&ring[1], &count), CPGRING_OK);
    IS(count, 257);
    for (unsigned k = 0; k < 32; k++) {
        IS(reach(1, 1 + 9 * k), 9);
        for (unsigned j = 1; j <= 8; j++) deliver(1, 8 * k + j);
    }
    IS(reach(1, 289), 2);
    deliver(1, 257);
    IS(cpgring_waiting(&ring[1], &count), CPGRING_OK);
    IS(count, 0);
    IS(cpgring_reached(&ring[1], &places, &hops), CPGRING_OK);
    IS(places, 257);
    IS(hops, 33);
    IS(cpgring_audit(&ring[1], 257, &record), CPGRING_OK);
    IS(record.call, 6);
    IS(record.verdict, CPGRING_ALLOWED);
    IS(record.basis, CPGRING_ON_NOTHING);
    IS(cpgring_audit(&ring[1], 258, &record), CPGRING_NONE);
    end(1);
}

static uint8_t *put_number(uint8_t *at, uint32_t number, unsigned bytes) {
    while (bytes-- > 0) *at++ = (uint8_t)(number >> (8 * bytes));
    return at;
}

/* the packet of an entry of ring 1, as a node sends it */
static size_t packet(uint8_t *frame, uint32_t place, uint32_t node, uint32_t conn, uint32_t pid, uint32_t uid, uint32_t gid,
                     const char *op, size_t op_len) {
    static const uint8_t head[] = {0x43, 2, 1, 0, 0, 0, 1};
    memcpy(frame, head, sizeof head);
    uint8_t *at = put_number(frame + sizeof head, place, 4);
    at = put_number(put_number(at, node, 1), conn, 2);
    at = put_number(put_number(put_number(at, pid, 4), uid, 4), gid, 4);
    memcpy(at, op, op_len);
    return (size_t)(at - frame) + op_len;
}

/* Members, groups, tables and records, as two askers see them under a rule. */
static void listings(void) {
    uint8_t frame[256], name[CPGRING_MOST_GROUP];
    size_t count = 9, len = 0;
    cpgring_process process;
    cpgring_rule rule;
    cpgring_record record;
    begin(2, 100);
    IS(cpgring_frame(&ring[1], frame, packet(frame, 1, 1, 1, 40, 7, 100, "\1\2db", 4)), CPGRING_OK);
    IS(cpgring_frame(&ring[1], frame, packet(frame, 1, 1, 1, 40, 7, 100, "\1\2db", 4)), CPGRING_HELD);
    IS(cpgring_frame(&ring[1], frame, packet(frame, 2, 1, 2, 41, 7, 100, "\1\3app", 5)), CPGRING_OK);
    IS(cpgring_frame(&ring[1], frame, packet(frame, 3, 2, 1, 50, 0, 0, "\4\2db\0\2\3\1\1\0\0\0\10", 13)), CPGRING_OK);
    IS(cpgring_frame(&ring[1], frame, packet(frame, 90, 2, 1, 50, 0, 0, "\2", 1)), CPGRING_FAR_AHEAD);
    IS(cpgring_frame(&ring[1], BYTES("no frame")), CPGRING_MALFORMED);
    deliver(1, 1), deliver(1, 2), deliver(1, 3);
    uint16_t seven = connect_as(1, 60, 7, 100), eight = connect_as(1, 61, 8, 100);

    IS(cpgring_groups(&ring[1], eight, &count), CPGRING_OK);
    IS(count, 1);
    IS(cpgring_named(&ring[1], 0, name, 2, &len), CPGRING_SPACE);
    IS(len, 3);
    IS(cpgring_named(&ring[1], 0, name, sizeof name, &len), CPGRING_OK);
    TEXT(name, len, "app");
    IS(cpgring_named(&ring[1], 1, name, sizeof name, &len), CPGRING_NONE);
    IS(cpgring_list(&ring[1], eight, BYTES("db"), &count), CPGRING_DENIED);
    IS(cpgring_listed(&ring[1], 0, &process), CPGRING_NONE);

    IS(cpgring_groups(&ring[1], seven, &count), CPGRING_OK);
    IS(count, 2);
    IS(cpgring_named(&ring[1], 1, name, sizeof name, &len), CPGRING_OK);
    TEXT(name, len, "db");
    IS(cpgring_list(&ring[1], seven, BYTES("db"), &count), CPGRING_OK);
    IS(count, 1);
    IS(cpgring_listed(&ring[1], 0, &process), CPGRING_OK);
    IS(process.node, 1);
    IS(process.pid, 40);
    IS(cpgring_listed(&ring[1], 1, &process), CPGRING_NONE);
    IS(cpgring_list(&ring[1], seven, BYTES("zz"), &count), CPGRING_OK);
    IS(count, 0);

    IS(cpgring_table(&ring[1], BYTES("db"), 0, &rule), CPGRING_OK);
    IS(rule.id, 3);
    IS(rule.effect, CPGRING_DENY);
    IS(rule.right, CPGRING_RIGHT_LIST);
    IS(rule.has_uid, true);
    IS(rule.uid, 8);
    IS(rule.has_gid, false);
    IS(rule.has_node, false);
    IS(cpgring_table(&ring[1], BYTES("db"), 1, &rule), CPGRING_NONE);
    IS(cpgring_table(&ring[1], BYTES("app"), 0, &rule), CPGRING_NONE);

    IS(cpgring_audit(&ring[1], 3, &record), CPGRING_OK);
    IS(record.node, 2);
    IS(record.conn, 1);
    IS(record.pid, 50);
    IS(record.uid, 0);
    IS(record.gid, 0);
    IS(record.call, 4);
    IS(record.verdict, CPGRING_ALLOWED);
    IS(record.basis, CPGRING_ON_ROOT);
    IS(record.members, 1);
    IS(record.message_len, 0);
    IS(cpgring_audit_group(&ring[1], 3, name, record.group_len), CPGRING_OK);
    TEXT(name, record.group_len, "db");
    IS(cpgring_audit_message(&ring[1], 3, name, sizeof name), CPGRING_NONE);
    IS(cpgring_audit(&ring[1], 0, &record), CPGRING_NONE);

    IS(cpgring_notified(&ring[1], 3, 0, &process), CPGRING_OK);
    IS(process.node, 2);
    IS(process.conn, 1);
    IS(process.pid, 50);
    IS(process.cause, 0);
    IS(cpgring_notified(&ring[1], 3, 1, &process), CPGRING_OK);
    IS(process.node, 1);
    IS(process.pid, 40);
    IS(cpgring_notified(&ring[1], 3, 2, &process), CPGRING_NONE);
    IS(cpgring_notified(&ring[1], 0, 0, &process), CPGRING_NONE);
    end(2);
}

/* Rules that are put in and taken out, a message past them, and what they deny. */
static void rules(void) {
    uint8_t message[CPGRING_MOST_MESSAGE + 1] = {0};
    cpgring_rule rule = {0, CPGRING_DENY, CPGRING_RIGHT_SEND, true, false, true, 7, 0, 1};
    cpgring_process process;
    cpgring_record record;
    cpgring_event event;
    begin(1, 100);
    uint16_t seven = connect_as(1, 40, 7, 100), root = connect_as(1, 41, 0, 0);
    IS(cpgring_join(&ring[1], seven, BYTES("db")), CPGRING_OK);
    IS(cpgring_insert(&ring[1], root, BYTES("db"), 0, &rule), CPGRING_OK);
    IS(cpgring_send(&ring[1], seven, BYTES("no")), CPGRING_OK);
    IS(cpgring_remove(&ring[1], root, BYTES("db"), 2), CPGRING_OK);
    IS(cpgring_send(&ring[1], seven, BYTES("yes")), CPGRING_OK);
    rule.effect = 3;
    IS(cpgring_insert(&ring[1], root, BYTES("db"), 0, &rule), CPGRING_RANGE);
    rule.effect = CPGRING_ALLOW, rule.node = 9;
    IS(cpgring_insert(&ring[1], root, BYTES("db"), 0, &rule), CPGRING_RANGE);
    IS(cpgring_join(&ring[1], seven, BYTES("a b")), CPGRING_BAD_NAME);
    IS(cpgring_send(&ring[1], seven, message, sizeof message), CPGRING_TOO_LONG);
    IS(cpgring_send(&ring[1], 3, message, 0), CPGRING_NO_CONNECTION);
    IS(reach(1, 1), 6);
    for (uint32_t place = 1; place <= 5; place++) deliver(1, place);
    is_verdict(1, seven, 1, CPGRING_ALLOWED, CPGRING_ON_DEFAULT, 0);
    IS(cpgring_take(&ring[1], seven, &event), CPGRING_OK);
    IS(cpgring_take(&ring[1], seven, &event), CPGRING_OK);
    IS(event.kind, CPGRING_RULES);
    IS(event.place, 2);
    is_verdict(1, seven, 3, CPGRING_BY_RULE, CPGRING_ON_RULE, 2);
    IS(cpgring_message(&ring[1], message, sizeof message), CPGRING_NONE);
    IS(cpgring_group(&ring[1], message, sizeof message), CPGRING_NONE);
    IS(cpgring_notified(&ring[1], 3, 0, &process), CPGRING_OK);
    IS(process.conn, seven);
    IS(cpgring_notified(&ring[1], 3, 1, &process), CPGRING_NONE);
    IS(cpgring_audit(&ring[1], 5, &record), CPGRING_OK);
    IS(record.call, 3);
    IS(cpgring_audit_message(&ring[1], 5, message, record.message_len), CPGRING_OK);
    TEXT(message, record.message_len, "yes");
    end(1);
}

/* A ring of one node turns by itself: eight calls get a place in a turn, and no frame is handed over. */
static void turns(void) {
    uint64_t hops = 0;
    uint32_t places = 0;
    size_t count = 0;
    cpgring_event event;
    begin(1, 1000);
    connect_as(1, 1, 7, 7);
    IS(cpgring_turn(&ring[1]), CPGRING_OK);
    IS(collect(1), 0);
    deliver_none(1);
    IS(cpgring_join(&ring[1], 1, BYTES("db")), CPGRING_OK);
    for (unsigned k = 0; k < 11; k++) IS(cpgring_send(&ring[1], 1, BYTES("hi")), CPGRING_OK);
    IS(cpgring_turn(&ring[1]), CPGRING_OK);
    IS(collect(1), 0);
    for (uint32_t k = 1; k <= 8; k++) deliver(1, k);
    deliver_none(1);
    IS(cpgring_waiting(&ring[1], &count), CPGRING_OK);
    IS(count, 4);
    IS(cpgring_turn(&ring[1]), CPGRING_OK);
    for (uint32_t k = 9; k <= 12; k++) deliver(1, k);
    IS(cpgring_reached(&ring[1], &places, &hops), CPGRING_OK);
    IS(places, 12);
    IS(hops, 3);
    is_verdict(1, 1, 1, CPGRING_ALLOWED, CPGRING_ON_DEFAULT, 0);
    is_join(1, 1, 1, 1, 1, 1);
    for (uint32_t k = 2; k <= 12; k++) {
        is_verdict(1, 1, k, CPGRING_ALLOWED, CPGRING_ON_DEFAULT, 0);
        IS(cpgring_take(&ring[1], 1, &event), CPGRING_OK);
        IS(event.kind, CPGRING_MESSAGE);
        IS(event.place, k);
    }
    is_end(1, 1);
    /* the token may be brought by hand at any time, as the same one */
    IS(cpgring_timer(&ring[1]), CPGRING_OK);
    IS(cpgring_turn(&ring[1]), CPGRING_BUSY);
    IS(collect(1), 1);
    IS(reach(1, sent), 1);
    IS(cpgring_reached(&ring[1], &places, &hops), CPGRING_OK);
    IS(hops, 4);
    end(1);

    begin(2, 100);
    IS(cpgring_turn(&ring[1]), CPGRING_NONE);
    IS(cpgring_turn(&ring[2]), CPGRING_NOT_MINE);
    connect_as(1, 40, 7, 100);
    IS(cpgring_join(&ring[1], 1, BYTES("db")), CPGRING_OK);
    IS(reach(1, 1), 2);
    IS(cpgring_turn(&ring[1]), CPGRING_NOT_MINE);
    deliver(1, 1);
    end(2);

    cpgring_setup setup = {1, 1, 1, 100, 2};
    const uint32_t none[1] = {0};
    IS(cpgring_open(&ring[1], &setup, none, 0, none, 0), CPGRING_OK);
    IS(cpgring_turn(&ring[1]), CPGRING_OK);
    IS(cpgring_turn(&ring[1]), CPGRING_OK);
    IS(cpgring_turn(&ring[1]), CPGRING_RING_END);
    end(1);
}

static bool is_same(const uint8_t *found, const uint8_t *wanted, size_t len) {
    return len == 0 ? found == NULL : memcmp(found, wanted, len) == 0;
}

/* Messages of 0 to 8,192 bytes are lent where the node has them: an event's until the next is taken, a short record's until the
 * next delivery, a longer one's until the end. Those are looked at again after 300 places more. */
static void lent(void) {
    enum { SIZES = 7 };
    static const size_t sizes[SIZES] = {0, 3, 22, 23, CPGRING_SHORT_MESSAGE, CPGRING_SHORT_MESSAGE + 1, CPGRING_MOST_MESSAGE};
    static uint8_t message[CPGRING_MOST_MESSAGE];
    const uint8_t *at[SIZES] = {0}, *of_event = NULL;
    size_t len = 0;
    cpgring_event event;
    begin(1, 1000);
    connect_as(1, 1, 7, 7);
    for (unsigned k = 0; k < sizeof message; k++) message[k] = (uint8_t)(k * 7 + 1);
    IS(cpgring_lent(&ring[1], &of_event, &len), CPGRING_NONE);
    IS(cpgring_join(&ring[1], 1, BYTES("db")), CPGRING_OK);
    for (unsigned k = 0; k < SIZES; k++) IS(cpgring_send(&ring[1], 1, message, sizes[k]), CPGRING_OK);
    IS(cpgring_turn(&ring[1]), CPGRING_OK);
    for (uint32_t k = 1; k <= SIZES + 1; k++) deliver(1, k);
    is_verdict(1, 1, 1, CPGRING_ALLOWED, CPGRING_ON_DEFAULT, 0);
    IS(cpgring_lent(&ring[1], &of_event, &len), CPGRING_NONE);
    is_join(1, 1, 1, 1, 1, 1);
    IS(cpgring_audit_lent(&ring[1], 1, &of_event, &len), CPGRING_NONE);
    IS(cpgring_audit_lent(&ring[1], 0, &of_event, &len), CPGRING_NONE);
    IS(cpgring_audit_lent(&ring[1], SIZES + 2, &of_event, &len), CPGRING_NONE);
    for (unsigned k = 0; k < SIZES; k++) {
        is_verdict(1, 1, k + 2, CPGRING_ALLOWED, CPGRING_ON_DEFAULT, 0);
        IS(cpgring_take(&ring[1], 1, &event), CPGRING_OK);
        IS(event.message_len, sizes[k]);
        IS(cpgring_lent(&ring[1], &of_event, &len), CPGRING_OK);
        IS(len, sizes[k]);
        IS(is_same(of_event, message, len), true);
        IS(cpgring_audit_lent(&ring[1], k + 2, &at[k], &len), CPGRING_OK);
        IS(len, sizes[k]);
    }
    is_end(1, 1);
    for (unsigned k = 0; k < SIZES; k++) IS(is_same(at[k], message, sizes[k]), true);
    IS(is_same(of_event, message, len), true);
    for (unsigned k = 0; k < 300; k++) {
        uint32_t place = 0;
        IS(cpgring_send(&ring[1], 1, BYTES("more")), CPGRING_OK);
        IS(cpgring_turn(&ring[1]), CPGRING_OK);
        IS(cpgring_deliver(&ring[1], &place), CPGRING_OK);
    }
    IS(is_same(of_event, message, len), true);
    for (unsigned k = 0; k < SIZES; k++) {
        if (sizes[k] > CPGRING_SHORT_MESSAGE) IS(is_same(at[k], message, sizes[k]), true);
        IS(cpgring_audit_lent(&ring[1], k + 2, &at[k], &len), CPGRING_OK);
        IS(len, sizes[k]);
        IS(is_same(at[k], message, len), true);
    }
    end(1);
}

static void is_seat(unsigned node, size_t index, uint32_t wanted) {
    uint32_t place = 0;
    IS(cpgring_seat(&ring[node], index, &place), CPGRING_OK);
    IS(place, wanted);
}

/* Who are members, by the places of their joins, though a rule lets nobody list: after joins, a join that is denied, a leave, a
 * join again, and an end. */
static void seats(void) {
    cpgring_rule rule = {0, CPGRING_DENY, CPGRING_RIGHT_LIST, false, false, false, 0, 0, 0};
    cpgring_rule other = {0, CPGRING_DENY, CPGRING_RIGHT_JOIN, true, false, false, 8, 0, 0};
    cpgring_record record;
    size_t count = 9;
    uint32_t place = 0;
    begin(1, 100);
    IS(cpgring_seats(&ring[1], &count), CPGRING_OK);
    IS(count, 0);
    IS(cpgring_seat(&ring[1], 0, &place), CPGRING_NONE);
    uint16_t one = connect_as(1, 40, 7, 100), two = connect_as(1, 41, 7, 100), root = connect_as(1, 42, 0, 0);
    uint16_t eight = connect_as(1, 43, 8, 100);
    IS(cpgring_insert(&ring[1], root, BYTES("db"), 0, &rule), CPGRING_OK);  /* 1 */
    IS(cpgring_insert(&ring[1], root, BYTES("db"), 0, &other), CPGRING_OK); /* 2 */
    IS(cpgring_join(&ring[1], one, BYTES("db")), CPGRING_OK);               /* 3 */
    IS(cpgring_join(&ring[1], two, BYTES("app")), CPGRING_OK);              /* 4 */
    IS(cpgring_join(&ring[1], eight, BYTES("db")), CPGRING_OK);             /* 5: denied */
    IS(cpgring_join(&ring[1], root, BYTES("db")), CPGRING_OK);              /* 6 */
    IS(cpgring_turn(&ring[1]), CPGRING_OK);
    for (uint32_t k = 1; k <= 6; k++) deliver(1, k);
    IS(cpgring_list(&ring[1], one, BYTES("db"), &count), CPGRING_DENIED);
    IS(cpgring_seats(&ring[1], &count), CPGRING_OK);
    IS(count, 3);
    is_seat(1, 0, 3), is_seat(1, 1, 4), is_seat(1, 2, 6);
    IS(cpgring_seat(&ring[1], 3, &place), CPGRING_NONE);
    IS(cpgring_audit(&ring[1], 4, &record), CPGRING_OK);
    IS(record.conn, two);
    IS(record.uid, 7);

    IS(cpgring_leave(&ring[1], one), CPGRING_OK);              /* 7 */
    IS(cpgring_leave(&ring[1], eight), CPGRING_OK);            /* 8: it is in no group */
    IS(cpgring_join(&ring[1], one, BYTES("app")), CPGRING_OK); /* 9 */
    IS(cpgring_disconnect(&ring[1], root), CPGRING_OK);        /* 10 */
    IS(cpgring_turn(&ring[1]), CPGRING_OK);
    for (uint32_t k = 7; k <= 10; k++) deliver(1, k);
    is_seat(1, 2, 6); /* as it was found */
    IS(cpgring_seats(&ring[1], &count), CPGRING_OK);
    IS(count, 2);
    is_seat(1, 0, 4), is_seat(1, 1, 9);
    IS(cpgring_seat(&ring[1], 2, &place), CPGRING_NONE);
    end(1);
}

/* Delivers a join and nine messages of one connection at a ring of one node. */
static void fill_ten(void) {
    begin(1, 100);
    connect_as(1, 40, 7, 100);
    IS(cpgring_join(&ring[1], 1, BYTES("db")), CPGRING_OK);
    for (unsigned k = 0; k < 9; k++) IS(cpgring_send(&ring[1], 1, BYTES("a message of more than 16 bytes")), CPGRING_OK);
    IS(cpgring_turn(&ring[1]), CPGRING_OK);
    for (uint32_t k = 1; k <= 8; k++) deliver(1, k);
    IS(cpgring_turn(&ring[1]), CPGRING_OK);
    for (uint32_t k = 9; k <= 10; k++) deliver(1, k);
}

static void shed(cpgring *handle, size_t most, size_t wanted) {
    size_t left = 99;
    IS(cpgring_shed(handle, most, &left), CPGRING_OK);
    IS(left, wanted);
}

/* A node of ten places is closed into another one, which goes on as it was and gives back what that one had, piece by piece; a
 * second one is closed into it before all is given back, and the rest goes with it. */
static void closed_into(void) {
    cpgring keeper = CPGRING_INIT, none = CPGRING_INIT;
    cpgring_setup setup = {2, 1, 1, 100, 100};
    const uint32_t users[] = {0};
    uint16_t conn = 0;
    size_t left = 0;
    const uint8_t *message = NULL;
    fill_ten();
    IS(cpgring_close_into(&ring[1], &none), CPGRING_CLOSED);
    IS(cpgring_close_into(&none, &ring[1]), CPGRING_CLOSED);
    IS(cpgring_close_into(&none, &keeper), CPGRING_CLOSED);
    IS(cpgring_shed(&none, 1, &left), CPGRING_CLOSED);
    shed(&ring[1], 1, 0);
    IS(cpgring_audit_lent(&ring[1], 10, &message, &left), CPGRING_OK);
    IS(left, 31);
    IS(cpgring_open(&keeper, &setup, users, 0, users, 0), CPGRING_OK);
    IS(cpgring_connect(&keeper, 1, 0, 0, &conn), CPGRING_OK);
    IS(cpgring_close_into(&ring[1], &keeper), CPGRING_OK);
    IS(cpgring_close(&ring[1]), CPGRING_CLOSED);
    shed(&keeper, 4, 6);
    shed(&keeper, 0, 6);
    shed(&keeper, 4, 2);
    shed(&keeper, 1000, 0);
    shed(&keeper, 1, 0);
    IS(cpgring_connect(&keeper, 1, 0, 0, &conn), CPGRING_OK);
    IS(conn, 2);
    for (unsigned k = 0; k < 2; k++) {
        fill_ten();
        IS(cpgring_close_into(&ring[1], &keeper), CPGRING_OK);
        shed(&keeper, 3, 7);
    }
    IS(cpgring_close(&keeper), CPGRING_OK);
}

/* Handles that are opened, opened again, closed, and used when they are not open. */
static void handles(void) {
    cpgring handle = CPGRING_INIT;
    cpgring_setup setup = {1, 2, 3, 100, 100};
    cpgring_fault fault = {9, 9};
    cpgring_event event;
    const uint32_t none[1] = {0};
    uint16_t conn = 0;
    uint8_t byte = 0;
    size_t len = 0;
    const uint8_t *at = NULL;
    uint32_t number = 0;
    uint64_t hops = 0;
    IS(cpgring_close(&handle), CPGRING_CLOSED);
    IS(cpgring_open(&handle, &setup, none, 0, none, 0), CPGRING_RANGE);
    setup.node = 0;
    IS(cpgring_open(&handle, &setup, none, 0, none, 0), CPGRING_RANGE);
    setup.node = 1, setup.places = 0;
    IS(cpgring_open(&handle, &setup, none, 0, none, 0), CPGRING_RANGE);
    setup.places = CPGRING_MOST_PLACES, setup.hops = CPGRING_MOST_HOPS;
    IS(cpgring_open_conf(&handle, &setup, BYTES("user a"), BYTES(""), &fault), CPGRING_BAD_LINE);
    IS(fault.text, 1);
    IS(fault.line, 1);
    IS(cpgring_open_conf(&handle, &setup, BYTES("user a 7\n"), BYTES("uidgid {\n uid: a\n gid: b\n}\n"), &fault), CPGRING_UNKNOWN_NAME);
    IS(fault.text, 2);
    IS(fault.line, 3);
    IS(cpgring_open_conf(&handle, &setup, BYTES("user a 7\n"), BYTES("uidgid {\n uid: a\n"), &fault), CPGRING_UNCLOSED);
    IS(fault.line, 0);
    IS(cpgring_open_conf(&handle, &setup, BYTES("user a 7\n"), BYTES("uidgid {\n uid: a\n}\n"), &fault), CPGRING_OK);
    IS(fault.text, 0);
    IS(cpgring_open(&handle, &setup, none, 0, none, 0), CPGRING_BUSY);
    IS(cpgring_connect(&handle, 1, 8, 8, &conn), CPGRING_ACCESS);
    IS(cpgring_connect(&handle, 1, 7, 8, &conn), CPGRING_OK);
    IS(cpgring_timer(&handle), CPGRING_NONE);
    IS(cpgring_reached(&handle, &number, &hops), CPGRING_NONE);
    IS(cpgring_next(&handle, &byte, 1, &len, &number), CPGRING_NONE);
    IS(cpgring_take(&handle, 1, &event), CPGRING_NONE);
    IS(cpgring_take(&handle, 2, &event), CPGRING_NO_CONNECTION);
    IS(cpgring_close(&handle), CPGRING_OK);
    IS(cpgring_close(&handle), CPGRING_CLOSED);
    IS(cpgring_join(&handle, 1, &byte, 1), CPGRING_CLOSED);
    IS(cpgring_send(&handle, 1, &byte, 1), CPGRING_CLOSED);
    IS(cpgring_next(&handle, &byte, 1, &len, &number), CPGRING_CLOSED);
    IS(cpgring_message(&handle, &byte, 1), CPGRING_CLOSED);
    IS(cpgring_safe(&handle, &number), CPGRING_CLOSED);
    IS(cpgring_turn(&handle), CPGRING_CLOSED);
    IS(cpgring_lent(&handle, &at, &len), CPGRING_CLOSED);
    IS(cpgring_audit_lent(&handle, 1, &at, &len), CPGRING_CLOSED);
    IS(cpgring_seats(&handle, &len), CPGRING_CLOSED);
    IS(cpgring_seat(&handle, 0, &number), CPGRING_CLOSED);
    IS(cpgring_open(&handle, &setup, none, 0, none, 0), CPGRING_OK);
    IS(cpgring_close(&handle), CPGRING_OK);
    for (uint32_t status = 0; status < 80; status++) {
        const char *text = cpgring_refusal_text(status);
        if (text[0] != '?') IS(strtoul(text, NULL, 10), status);
    }
}

int main(void) {
    two_nodes();
    lost_frame();
    full_queue();
    listings();
    rules();
    turns();
    lent();
    seats();
    closed_into();
    handles();
    printf("%u answers compared, %u differ\n", compared, differing);
    return differing != 0;
}
