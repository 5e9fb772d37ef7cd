/* save.h -- a packet to its file */
#ifndef SAVE_H
#define SAVE_H

#include "packets.h"

/* Writes a packet's bytes whole beside its path, and then renames that to it. If it cannot, says why on standard error and
 * answers -1: what was at the path is as it was. */
int packet_save(const struct packet *packet, const char *program);

#endif
