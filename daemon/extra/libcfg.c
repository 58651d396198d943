/* The three calls of libcfg.so.7 that corosync-cpgtool makes, so that it runs over cpgringd, which has no cfg.
 * A handle stands for nothing, and no node has an address.
 * It is installed apart from the libraries, and is used by who asks for it by LD_LIBRARY_PATH. */
#include <stddef.h>
#include <stdint.h>

enum { OK = 1, NOT_EXIST = 12 };

int corosync_cfg_initialize(uint64_t *handle, const void *callbacks);
int corosync_cfg_finalize(uint64_t handle);
int corosync_cfg_get_node_addrs(uint64_t handle, unsigned node, size_t most, int *count, void *addresses);

int corosync_cfg_initialize(uint64_t *handle, const void *callbacks) {
    (void)callbacks;
    *handle = 1;
    return OK;
}

int corosync_cfg_finalize(uint64_t handle) {
    (void)handle;
    return OK;
}

int corosync_cfg_get_node_addrs(uint64_t handle, unsigned node, size_t most, int *count, void *addresses) {
    (void)handle, (void)node, (void)most, (void)addresses;
    *count = 0;
    return NOT_EXIST;
}
