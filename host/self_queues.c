/* self_queues.c - the plain service entries under the names of router.h, likewise. */
#define plain_fault router_fault
#define plain_queues_fill router_queues_fill
#define plain_queues_control router_queues_control
#define plain_queues_tick router_queues_tick
#define plain_service_version service_version
#include "plain_queues.c"
