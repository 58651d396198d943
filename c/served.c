/* Makes every call of cpgring_served.h, and compares what clients are told, byte by byte where it matters, with what was
 * worked out by hand: two clients that meet in a group, asks that come in pieces, a full queue, broken bytes, a client that
 * is gone, a rule, the next ring, and refusals. */
#include "cpgring_served.h"

#include "../daemon/protocol.h"
#include "expect.h"

static cpgring_served node = CPGRING_SERVED_INIT;
static const cpgring_setup setup = {9, 1, 1, 1000, 100000};
static const char conf[] = "uidgid {\n  uid: 7\n}\n";
static cpgring_fault fault;
static uint16_t conn;

#define CONF (const uint8_t *)conf, sizeof conf - 1

/* ---- what a client says ---- */

static uint8_t asks[300 * 64];
static size_t said;

static void say(uint16_t kind, uint16_t tag, const void *body, uint32_t len) {
    struct head head = {len, kind, tag};
    memcpy(asks + said, &head, sizeof head);
    if (len) memcpy(asks + said + sizeof head, body, len);
    said += sizeof head + len;
}

/* the client's bytes are heard, all of them, and the ring settles */
static void hear(uint16_t who) {
    size_t heard = 0;
    uint32_t why = 9;
    IS(cpgring_served_hear(&node, who, asks, said, &heard, &why), CPGRING_OK);
    IS(heard, said);
    IS(why, CPGRING_HEARD_ALL);
    said = 0;
    IS(cpgring_served_settle(&node), CPGRING_OK);
}

/* ---- what a client is told: a frame at the front of its output, which then is written ---- */

static uint8_t body[512];

static uint32_t told(uint16_t who, uint16_t kind, uint16_t tag) {
    const uint8_t *at = NULL;
    size_t len = 0;
    struct head head = {0, 0, 0};
    IS(cpgring_served_output(&node, who, &at, &len), CPGRING_OK);
    if (len < sizeof head) {
        IS(len, sizeof head);
        return 0;
    }
    memcpy(&head, at, sizeof head);
    IS(head.kind, kind);
    IS(head.tag, tag);
    IS(head.len % 8, 0);
    if (head.len > sizeof body || sizeof head + head.len > len) {
        IS(head.len, len - sizeof head);
        return 0;
    }
    memcpy(body, at + sizeof head, head.len);
    IS(cpgring_served_wrote(&node, who, len + 1), CPGRING_RANGE);
    IS(cpgring_served_wrote(&node, who, sizeof head), CPGRING_OK); /* in two parts */
    IS(cpgring_served_wrote(&node, who, head.len), CPGRING_OK);
    return head.len;
}

static void told_nothing_more(uint16_t who) {
    const uint8_t *at = NULL;
    size_t len = 9;
    IS(cpgring_served_output(&node, who, &at, &len), CPGRING_OK);
    IS(len, 0);
}

static uint32_t word(size_t index) {
    uint32_t number;
    memcpy(&number, body + 4 * index, sizeof number);
    return number;
}

static void words_are(uint32_t a, uint32_t b, uint32_t c, uint32_t d, uint32_t e, uint32_t f) {
    const uint32_t wanted[] = {a, b, c, d, e, f};
    for (size_t k = 0; k < 6; k++) IS(word(k), wanted[k]);
}

static void answered(uint16_t who, uint16_t kind, uint16_t tag, uint32_t status) {
    told(who, (uint16_t)(kind | ANSWER), tag);
    IS(word(0), status);
}

/* a change of a group with a name of `name_len` bytes: how many members there are after it, and who left or joined, and why */
static void changed(uint16_t who, uint32_t members, uint32_t left, uint32_t joined, uint32_t pid, uint32_t reason) {
    told(who, TELL_CHANGE, 0);
    IS(word(0), 2); /* bytes of the name */
    IS(word(1), members);
    IS(word(2), left);
    IS(word(3), joined);
    IS(word(4 + 3 * members + 1), pid);
    IS(word(4 + 3 * members + 2), reason);
    TEXT(body + 16 + 12 * (members + left + joined), 2, "db");
}

static void messaged(uint16_t who, uint32_t pid, const char *text) {
    told(who, TELL_MESSAGE, 0);
    IS(word(0), 1);
    IS(word(1), pid);
    IS(word(2), strlen(text));
    IS(word(3), 2);
    TEXT(body + 16, strlen(text), text);
    TEXT(body + 16 + fill8((uint32_t)strlen(text)), 2, "db");
}

/* ---- refusals ---- */

static void closed(void) {
    const uint8_t *at = NULL;
    size_t len = 0;
    uint32_t number = 0;
    IS(cpgring_served_close(&node), CPGRING_CLOSED);
    IS(cpgring_served_arrive(&node, 40, 7, 100, &conn), CPGRING_CLOSED);
    IS(cpgring_served_hear(&node, 1, asks, 0, &len, &number), CPGRING_CLOSED);
    IS(cpgring_served_lost(&node, 1), CPGRING_CLOSED);
    IS(cpgring_served_settle(&node), CPGRING_CLOSED);
    IS(cpgring_served_output(&node, 1, &at, &len), CPGRING_CLOSED);
    IS(cpgring_served_wrote(&node, 1, 0), CPGRING_CLOSED);
    IS(cpgring_served_reached(&node, &len, &number), CPGRING_CLOSED);
    IS(cpgring_served_renew(&node, &setup, asks, 0, CONF, &fault, &conn, 1), CPGRING_CLOSED);
}

static void opening(void) {
    cpgring_setup none = setup;
    none.nodes = 9;
    IS(cpgring_served_open(&node, &none, asks, 0, CONF, &fault), CPGRING_RANGE);
    IS(cpgring_served_open(&node, &setup, asks, 0, BYTES("uidgid {\n  uid: 7\n"), &fault), CPGRING_UNCLOSED);
    IS(fault.text, 2);
    IS(cpgring_served_open(&node, &setup, BYTES("users\n"), CONF, &fault), CPGRING_BAD_LINE);
    IS(fault.text, 1);
    IS(fault.line, 1);
    IS(cpgring_served_open(&node, &setup, asks, 0, CONF, &fault), CPGRING_OK);
    IS(cpgring_served_open(&node, &setup, asks, 0, CONF, &fault), CPGRING_BUSY);
    IS(cpgring_served_arrive(&node, 50, 9, 100, &conn), CPGRING_ACCESS);
    IS(cpgring_served_wrote(&node, 1, 0), CPGRING_OK); /* who never was there has no output */
    IS(cpgring_served_lost(&node, 1), CPGRING_NO_CONNECTION);
}

/* ---- two clients ---- */

static void meeting(void) {
    const uint32_t hello[2] = {PROTOCOL_VERSION, HELLO_LANES}, old[2] = {PROTOCOL_VERSION + 1, 0};
    IS(cpgring_served_arrive(&node, 40, 7, 100, &conn), CPGRING_OK);
    IS(conn, 1);
    IS(cpgring_served_arrive(&node, 41, 0, 0, &conn), CPGRING_OK);
    IS(conn, 2);
    told_nothing_more(1);
    say(ASK_HELLO, 3, hello, sizeof hello);
    hear(1);
    IS(told(1, ASK_HELLO | ANSWER, 3), 24);
    words_are(1, 1, 1, 8192, 9, 0);
    say(ASK_HELLO, 4, old, sizeof old);
    hear(2);
    answered(2, ASK_HELLO, 4, 3); /* CS_ERR_VERSION */
    say(ASK_SEND, 0, "early", 5);
    say(ASK_JOIN, 5, "db", 2);
    hear(1);
    told(1, TELL_DENIED, 0);
    IS(word(0), 12); /* CS_ERR_NOT_EXIST: it is in no group */
    IS(word(1), CPGRING_NO_GROUP);
    answered(1, ASK_JOIN, 5, 1);
    changed(1, 1, 0, 1, 40, 1);
    say(ASK_JOIN, 6, "db", 2);
    hear(2);
    answered(2, ASK_JOIN, 6, 1);
    changed(2, 2, 0, 1, 41, 1);
    changed(1, 2, 0, 1, 41, 1);
    say(ASK_MEMBERS, 7, "db", 2);
    hear(2);
    told(2, ASK_MEMBERS | ANSWER, 7);
    words_are(1, 2, 1, 40, 1, 41);
    told_nothing_more(1);
    told_nothing_more(2);
}

/* an ask in two pieces is heard once it is whole */
static void pieces(void) {
    size_t heard = 9;
    uint32_t why = 9;
    say(ASK_SEND, 0, "in pieces", 9);
    IS(cpgring_served_hear(&node, 1, asks, 10, &heard, &why), CPGRING_OK);
    IS(heard, 0);
    IS(why, CPGRING_HEARD_ALL);
    IS(cpgring_served_settle(&node), CPGRING_OK);
    told_nothing_more(2);
    hear(1);
    messaged(2, 40, "in pieces");
    messaged(1, 40, "in pieces");
}

static void full(void) {
    size_t heard = 0;
    uint32_t why = 9;
    for (unsigned k = 0; k < 257; k++) say(ASK_SEND, 0, "x", 1);
    IS(cpgring_served_hear(&node, 2, asks, said, &heard, &why), CPGRING_OK);
    IS(heard, 256 * 9);
    IS(why, CPGRING_HEARD_FULL);
    IS(cpgring_served_settle(&node), CPGRING_OK);
    IS(cpgring_served_hear(&node, 2, asks + heard, said - heard, &heard, &why), CPGRING_OK);
    IS(why, CPGRING_HEARD_ALL);
    said = 0;
    IS(cpgring_served_settle(&node), CPGRING_OK);
    for (unsigned k = 0; k < 257; k++) {
        messaged(1, 41, "x");
        messaged(2, 41, "x");
    }
    told_nothing_more(1);
}

/* ---- the end of a client, and the next ring ---- */

static void rule(void) {
    struct ask_rule deny = {0, CPGRING_DENY, CPGRING_RIGHT_SEND, HAS_UID, 7, 0, 0};
    uint8_t ask[sizeof deny + 2];
    memcpy(ask, &deny, sizeof deny);
    memcpy(ask + sizeof deny, "db", 2);
    say(ASK_INSERT, 8, ask, sizeof ask);
    hear(2);
    answered(2, ASK_INSERT, 8, 1);
}

static void denied(uint16_t who) {
    say(ASK_SEND, 0, "no", 2);
    hear(who);
    told(who, TELL_DENIED, 0);
    IS(word(0), 11); /* CS_ERR_ACCESS */
    IS(word(1), CPGRING_BY_RULE);
    told_nothing_more(who);
}

static void lost(void) {
    size_t heard = 9;
    uint32_t why = 9;
    say(99, 0, "?", 1);
    IS(cpgring_served_hear(&node, 2, asks, said, &heard, &why), CPGRING_OK);
    IS(heard, 0);
    IS(why, CPGRING_HEARD_BROKEN);
    said = 0;
    IS(cpgring_served_lost(&node, 2), CPGRING_OK);
    IS(cpgring_served_lost(&node, 2), CPGRING_NO_CONNECTION);
    IS(cpgring_served_hear(&node, 2, asks, 0, &heard, &why), CPGRING_NO_CONNECTION);
    IS(cpgring_served_settle(&node), CPGRING_OK);
    changed(1, 1, 1, 0, 41, 5); /* CPG_REASON_PROCDOWN */
}

static void next_ring(void) {
    cpgring_setup next = setup;
    uint16_t numbers[3] = {9, 9, 9};
    size_t connections = 0;
    uint32_t places = 0;
    next.ring = 10;
    IS(cpgring_served_reached(&node, &connections, &places), CPGRING_OK);
    IS(connections, 2);
    IS(places, 264); /* an early message, two joins, one in pieces, 257 more, a rule, one denied, an end */
    IS(cpgring_served_renew(&node, &next, asks, 0, CONF, &fault, numbers, 1), CPGRING_SPACE);
    IS(cpgring_served_renew(&node, &next, asks, 0, BYTES("uidgid {\n"), &fault, numbers, 3), CPGRING_UNCLOSED);
    IS(cpgring_served_renew(&node, &next, asks, 0, BYTES(""), &fault, numbers, 3), CPGRING_ACCESS); /* it lets user 7 in no more */
    for (size_t k = 0; k < 3; k++) IS(numbers[k], 9); /* none was written */
    IS(cpgring_served_renew(&node, &next, asks, 0, CONF, &fault, numbers, 3), CPGRING_OK);
    IS(numbers[0], 2); /* the first is the daemon's own, which put the rule in */
    IS(numbers[1], 0);
    IS(numbers[2], 9);
    told_nothing_more(2);
    denied(2);
    say(ASK_LEAVE, 9, "", 0);
    hear(2);
    answered(2, ASK_LEAVE, 9, 1);
    changed(2, 0, 1, 0, 40, 2);
    IS(cpgring_served_arrive(&node, 42, 7, 100, &conn), CPGRING_OK);
    IS(conn, 3);
}

int main(void) {
    closed();
    opening();
    meeting();
    pieces();
    full();
    rule();
    denied(1);
    lost();
    next_ring();
    IS(cpgring_served_close(&node), CPGRING_OK);
    closed();
    printf("%u answers of a node with clients compared, %u differ\n", compared, differing);
    return differing != 0;
}
