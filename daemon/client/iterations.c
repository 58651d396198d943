/* Iterations over groups and their members: pictures of one moment, which one answer of the daemon gives.
 * Groups that may not be listed are left out; one that is asked for by name is told CS_ERR_ACCESS.
 * An iteration's handle is its own, and outlives the handle that it was made with. */
#include "instance.h"
#include <stdlib.h>
#include <string.h>

struct iteration {
    size_t count, next, room;
    struct cpg_iteration_description_t *items;
};

static struct iteration *iterations[MOST_HANDLES];
static uint32_t serial[MOST_HANDLES];

static void iteration_free(struct iteration *it) {
    if (it) free(it->items);
    free(it);
}

static bool add(struct iteration *it, const struct cpg_name *name, const struct listed *member) {
    if (it->count == it->room) {
        size_t room = it->room ? 2 * it->room : 16;
        struct cpg_iteration_description_t *items = realloc(it->items, room * sizeof *items);
        if (!items) return false;
        it->items = items;
        it->room = room;
    }
    it->items[it->count++] = (struct cpg_iteration_description_t){*name, member->node, member->pid};
    return true;
}

static bool add_members(struct iteration *it, const struct cpg_name *name, const uint8_t *from, uint32_t count) {
    for (uint32_t k = 0; k < count; k++) {
        struct listed member;
        memcpy(&member, from + k * sizeof member, sizeof member);
        if (!add(it, name, &member)) return false;
    }
    return true;
}

static cs_error_t one_group(struct instance *i, struct iteration *it, const struct cpg_name *group) {
    uint8_t *answer = NULL;
    uint32_t len = 0, words[2] = {0, 0};
    cs_error_t result = stream_ask(i, ASK_MEMBERS, group->value, group->length, &answer, &len);
    if (result == CS_OK && len < sizeof words) result = CS_ERR_LIBRARY;
    if (result == CS_OK) {
        memcpy(words, answer, sizeof words);
        bool whole = words[1] <= (len - sizeof words) / sizeof(struct listed);
        result = !whole ? CS_ERR_LIBRARY : add_members(it, group, answer + sizeof words, words[1]) ? CS_OK : CS_ERR_NO_MEMORY;
    }
    free(answer);
    return result;
}

/* Reads the groups of an answer, each with the members behind it. */
static cs_error_t read_groups(struct iteration *it, const uint8_t *at, size_t len, uint32_t count, bool members) {
    static const struct listed nobody;
    for (uint32_t k = 0; k < count; k++) {
        struct listed_group group;
        struct cpg_name name = {0, {0}};
        if (len < sizeof group) return CS_ERR_LIBRARY;
        memcpy(&group, at, sizeof group);
        at += sizeof group;
        len -= sizeof group;
        if (group.name_len > MOST_NAME || group.members > len / sizeof(struct listed)) return CS_ERR_LIBRARY;
        name.length = group.name_len;
        memcpy(name.value, group.name, group.name_len);
        if (!(members ? add_members(it, &name, at, group.members) : add(it, &name, &nobody))) return CS_ERR_NO_MEMORY;
        at += group.members * sizeof(struct listed);
        len -= group.members * sizeof(struct listed);
    }
    return CS_OK;
}

static cs_error_t all_groups(struct instance *i, struct iteration *it, bool members) {
    uint8_t *answer = NULL;
    uint32_t len = 0, words[2], ask = members;
    cs_error_t result = stream_ask(i, ASK_GROUPS, &ask, sizeof ask, &answer, &len);
    if (result == CS_OK && len < sizeof words) result = CS_ERR_LIBRARY;
    if (result == CS_OK) {
        memcpy(words, answer, sizeof words);
        result = read_groups(it, answer + sizeof words, len - sizeof words, words[1], members);
    }
    free(answer);
    return result;
}

static cs_error_t enter(struct iteration *it, cpg_iteration_handle_t *handle) {
    uint32_t k = 0;
    pthread_mutex_lock(&table_lock);
    while (k < MOST_HANDLES && iterations[k]) k++;
    if (k < MOST_HANDLES) {
        iterations[k] = it;
        *handle = (uint64_t)++serial[k] << 32 | k;
    }
    pthread_mutex_unlock(&table_lock);
    return k < MOST_HANDLES ? CS_OK : CS_ERR_NO_RESOURCES;
}

PUBLIC cs_error_t cpg_iteration_initialize(cpg_handle_t handle, cpg_iteration_type_t type, const struct cpg_name *group,
                                           cpg_iteration_handle_t *iteration) {
    struct instance *i = instance_get(handle);
    if (!i) return CS_ERR_BAD_HANDLE;
    struct iteration *it = calloc(1, sizeof *it);
    cs_error_t result = CS_ERR_INVALID_PARAM;
    if (!it) result = CS_ERR_NO_MEMORY;
    else if (type == CPG_ITERATION_ONE_GROUP && group && group->length <= CPG_MAX_NAME_LENGTH) result = one_group(i, it, group);
    else if ((type == CPG_ITERATION_NAME_ONLY || type == CPG_ITERATION_ALL) && !group)
        result = all_groups(i, it, type == CPG_ITERATION_ALL);
    if (result == CS_OK) result = enter(it, iteration);
    if (result != CS_OK) iteration_free(it);
    instance_put(i);
    return result;
}

static struct iteration **find(cpg_iteration_handle_t handle) {
    uint32_t k = (uint32_t)handle;
    return k < MOST_HANDLES && iterations[k] && serial[k] == handle >> 32 ? &iterations[k] : NULL;
}

PUBLIC cs_error_t cpg_iteration_next(cpg_iteration_handle_t handle, struct cpg_iteration_description_t *description) {
    cs_error_t result = CS_ERR_BAD_HANDLE;
    pthread_mutex_lock(&table_lock);
    struct iteration **it = find(handle);
    if (it && (*it)->next < (*it)->count) {
        *description = (*it)->items[(*it)->next++];
        result = CS_OK;
    } else if (it) result = CS_ERR_NO_SECTIONS;
    pthread_mutex_unlock(&table_lock);
    return result;
}

PUBLIC cs_error_t cpg_iteration_finalize(cpg_iteration_handle_t handle) {
    cs_error_t result = CS_ERR_BAD_HANDLE;
    pthread_mutex_lock(&table_lock);
    struct iteration **it = find(handle);
    if (it) {
        iteration_free(*it);
        *it = NULL;
        result = CS_OK;
    }
    pthread_mutex_unlock(&table_lock);
    return result;
}
