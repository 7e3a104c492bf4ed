/* The program's allocator, which serves packets alone; no_memory isn't called. */
#ifndef GOFNJERTA_ENET_CALLBACKS_H
#define GOFNJERTA_ENET_CALLBACKS_H
#include "unix.h"
#include <stdlib.h>

typedef struct _ENetCallbacks {
    void *(ENET_CALLBACK *malloc)(size_t size);
    void(ENET_CALLBACK *free)(void *memory);
    void(ENET_CALLBACK *no_memory)(void);
} ENetCallbacks;

extern void *enet_malloc(size_t);
extern void enet_free(void *);

#endif
