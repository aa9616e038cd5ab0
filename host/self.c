/* self.c - the plain implementation under the names router_*, so that the harness runs without another router. */
#define plain_fresh router_fresh
#define plain_control router_control
#define plain_tick router_tick
#define plain_display router_display
#define plain_version router_version
#include "plain.c"
