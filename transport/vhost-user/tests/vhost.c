/* Not proved. See vhost.h. */
#include "vhost.h"

#include <stdio.h>
#include <stdlib.h>

struct vhost vhost;

int rte_vhost_driver_register(const char *path, uint64_t flags)
{
    vhost.sockets++;
    return !path || flags;
}

int rte_vhost_driver_unregister(const char *path)
{
    vhost.sockets--;
    return !path;
}

int rte_vhost_driver_set_features(const char *path, uint64_t features)
{
    vhost.features = features;
    return !path;
}

int rte_vhost_driver_set_protocol_features(const char *path, uint64_t features)
{
    return !path || !features;
}

int rte_vhost_driver_callback_register(const char *path, struct rte_vhost_device_ops const *const calls)
{
    vhost.device = calls;
    return !path;
}

int rte_vhost_driver_start(const char *path)
{
    return !path;
}

int rte_vhost_extern_callback_register(int guest, struct rte_vhost_user_extern_ops const *const calls,
                                       void *context)
{
    (void)guest, (void)context;
    vhost.messages = calls;
    return 0;
}

int rte_vhost_get_ifname(int guest, char *bytes, size_t length)
{
    snprintf(bytes, length, "%s", vhost.paths[guest]);
    return 0;
}

int rte_vhost_get_negotiated_features(int guest, uint64_t *features)
{
    *features = vhost.negotiated[guest];
    return 0;
}

int rte_vhost_get_mem_table(int guest, struct rte_vhost_memory **memory)
{
    (void)guest;
    vhost.tables++;
    *memory = malloc(sizeof **memory + sizeof vhost.region);
    if (!*memory)
        return -1;
    (*memory)->nregions = 1;
    (*memory)->regions[0] = vhost.region;
    return 0;
}

int rte_vhost_get_vhost_vring(int guest, uint16_t queue, struct rte_vhost_vring *ring)
{
    if (queue >= VHOST_QUEUES)
        return -1;
    *ring = vhost.rings[guest][queue];
    return 0;
}

int rte_vhost_get_vring_base(int guest, uint16_t queue, uint16_t *avail, uint16_t *used)
{
    *avail = vhost.bases[guest][queue][0];
    *used = vhost.bases[guest][queue][1];
    return 0;
}

int rte_vhost_set_vring_base(int guest, uint16_t queue, uint16_t avail, uint16_t used)
{
    vhost.bases[guest][queue][0] = avail;
    vhost.bases[guest][queue][1] = used;
    return 0;
}

int rte_vhost_vring_call_nonblock(int guest, uint16_t queue)
{
    (void)guest, (void)queue;
    vhost.calls++;
    return vhost.call_result;
}
