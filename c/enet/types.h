/* The types of the protocol's numbers. */
#ifndef GOFNJERTA_ENET_TYPES_H
#define GOFNJERTA_ENET_TYPES_H

typedef unsigned char enet_uint8;
typedef unsigned short enet_uint16;
typedef unsigned int enet_uint32;

#endif
