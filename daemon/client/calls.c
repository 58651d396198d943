/* The calls that ask the daemon something: joins, leaves, messages, memberships; and buffers for messages.
 * A join and a leave are answered by their verdict, at their place of the agreed order.
 * A message has no answer: a denied one is told by the next call that sends, once. */
#include "instance.h"
#include <stdlib.h>
#include <string.h>

PUBLIC cs_error_t cpg_join(cpg_handle_t handle, const struct cpg_name *group) {
    struct instance *i = instance_get(handle);
    cs_error_t result = CS_ERR_NAME_TOO_LONG;
    if (!i) return CS_ERR_BAD_HANDLE;
    if (group->length <= CPG_MAX_NAME_LENGTH) result = stream_ask(i, ASK_JOIN, group->value, group->length, NULL, NULL);
    if (result == CS_OK) i->joined = true;
    instance_put(i);
    return result;
}

PUBLIC cs_error_t cpg_leave(cpg_handle_t handle, const struct cpg_name *group) {
    struct instance *i = instance_get(handle);
    (void)group; /* a handle is in one group */
    if (!i) return CS_ERR_BAD_HANDLE;
    cs_error_t result = stream_ask(i, ASK_LEAVE, NULL, 0, NULL, NULL);
    if (result == CS_OK) i->joined = false;
    instance_put(i);
    return result;
}

/* What keeps a message from being sent; CS_OK: nothing. */
static cs_error_t hindrance(struct instance *i, cpg_guarantee_t guarantee, unsigned count, size_t len) {
    if (guarantee < CPG_TYPE_UNORDERED || guarantee > CPG_TYPE_SAFE || count > MOST_PARTS) return CS_ERR_INVALID_PARAM;
    if (i->broken) return CS_ERR_LIBRARY;
    int denied = atomic_exchange(&i->denied, CS_OK);
    if (denied != CS_OK) return (cs_error_t)denied;
    return len > MOST_MESSAGE ? CS_ERR_TOO_BIG : CS_OK;
}

PUBLIC cs_error_t cpg_mcast_joined(cpg_handle_t handle, cpg_guarantee_t guarantee, const struct iovec *parts, unsigned int count) {
    struct instance *i = instance_get(handle);
    size_t len = 0;
    if (!i) return CS_ERR_BAD_HANDLE;
    for (unsigned k = 0; k < count && k < MOST_PARTS && len <= MOST_MESSAGE; k++)
        len += parts[k].iov_len <= MOST_MESSAGE ? parts[k].iov_len : MOST_MESSAGE + 1;
    cs_error_t result = hindrance(i, guarantee, count, len);
    if (result == CS_OK && !i->joined) result = i->like_corosync ? CS_OK : CS_ERR_NOT_EXIST;
    else if (result == CS_OK) result = pieces_send(i, parts, count, len);
    instance_put(i);
    return result;
}

PUBLIC cs_error_t cpg_membership_get(cpg_handle_t handle, struct cpg_name *group, struct cpg_address *list, int *entries) {
    struct instance *i = instance_get(handle);
    uint8_t *answer = NULL;
    uint32_t len = 0, words[2] = {0, 0};
    cs_error_t result = CS_ERR_INVALID_PARAM;
    if (!i) return CS_ERR_BAD_HANDLE;
    if (group && list && entries && group->length <= CPG_MAX_NAME_LENGTH)
        result = stream_ask(i, ASK_MEMBERS, group->value, group->length, &answer, &len);
    if (result == CS_OK && len < sizeof words) result = CS_ERR_LIBRARY;
    if (result == CS_OK) {
        memcpy(words, answer, sizeof words);
        if (words[1] > (len - sizeof words) / sizeof(struct listed)) words[1] = (uint32_t)((len - sizeof words) / sizeof(struct listed));
        for (uint32_t k = 0; k < words[1]; k++) {
            struct listed it;
            memcpy(&it, answer + sizeof words + k * sizeof it, sizeof it);
            list[k] = (struct cpg_address){it.node, it.pid, CPG_REASON_UNDEFINED};
        }
        *entries = (int)words[1];
    }
    free(answer);
    instance_put(i);
    return result;
}

/* ---- buffers: plain memory, since the socket copies ---- */

PUBLIC cs_error_t cpg_zcb_alloc(cpg_handle_t handle, size_t size, void **buffer) {
    struct instance *i = instance_get(handle);
    if (!i) return CS_ERR_BAD_HANDLE;
    *buffer = malloc(size ? size : 1);
    instance_put(i);
    return *buffer ? CS_OK : CS_ERR_NO_MEMORY;
}

PUBLIC cs_error_t cpg_zcb_free(cpg_handle_t handle, void *buffer) {
    struct instance *i = instance_get(handle);
    if (!i) return CS_ERR_BAD_HANDLE;
    free(buffer);
    instance_put(i);
    return CS_OK;
}

PUBLIC cs_error_t cpg_zcb_mcast_joined(cpg_handle_t handle, cpg_guarantee_t guarantee, void *message, size_t len) {
    struct iovec part = {message, len};
    return cpg_mcast_joined(handle, guarantee, &part, 1);
}
