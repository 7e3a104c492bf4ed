/* Packets of either library: no length is too long to be refused, and the bytes are a block of their own, which a program may take, replace
 * or lend. Compiled against either library's header. */
#include <enet/enet.h>
#include <stdint.h>
#include <stdio.h>
#include <stdlib.h>
#include <string.h>

static long passed, failed;

#define CHECK(condition) ((condition) ? (void)passed++ : (void)(failed++, printf("%s:%d: not so: %s\n", __FILE__, __LINE__, #condition)))

/* Lengths as an underflow makes them. */
static void lengths(void) {
    for (size_t under = 1; under <= 200; under++) {
        volatile size_t length = (size_t)0 - under;
        CHECK(enet_packet_create(NULL, length, 0) == NULL);
        ENetPacket *packet = enet_packet_create("abc", 3, ENET_PACKET_FLAG_RELIABLE);
        CHECK(enet_packet_resize(packet, length) == -1);
        CHECK(packet->dataLength == 3 && !memcmp(packet->data, "abc", 3));
        enet_packet_destroy(packet);
    }
    volatile size_t half = SIZE_MAX / 2;
    CHECK(enet_packet_create(NULL, half, 0) == NULL && enet_packet_create(NULL, half + 1, 0) == NULL);
    ENetPacket *none = enet_packet_create(NULL, 0, 0);
    CHECK(none && none->dataLength == 0 && enet_packet_resize(none, 4) == 0);
    memcpy(none->data, "four", 4);
    CHECK(enet_packet_resize(none, 2) == 0 && none->dataLength == 2 && enet_packet_resize(none, 900) == 0 && !memcmp(none->data, "fo", 2));
    enet_packet_destroy(none);
}

static int given_back;

static void ENET_CALLBACK give_back(ENetPacket *packet) {
    free(packet->data);
    given_back++;
}

/* The bytes of a packet that the library made are taken, replaced, and those of the program's lent. */
static void bytes(void) {
    ENetPacket *packet = enet_packet_create("taken", 5, 0);
    enet_uint8 *taken = packet->data;
    packet->flags |= ENET_PACKET_FLAG_NO_ALLOCATE;
    enet_packet_destroy(packet);
    CHECK(!memcmp(taken, "taken", 5));
    enet_free(taken);
    packet = enet_packet_create("taken", 5, 0);
    taken = packet->data;
    packet->data = NULL;
    enet_packet_destroy(packet);
    CHECK(!memcmp(taken, "taken", 5));
    free(taken); /* enet_malloc is malloc where the program gave no allocator */
    packet = enet_packet_create("taken", 5, 0);
    enet_free(packet->data);
    packet->data = enet_malloc(9);
    memcpy(packet->data, "replaced", 9);
    packet->dataLength = 9;
    CHECK(enet_packet_resize(packet, 2000) == 0 && !memcmp(packet->data, "replaced", 9));
    enet_packet_destroy(packet);
    char *lent = malloc(5);
    memcpy(lent, "lent", 5);
    packet = enet_packet_create(lent, 5, ENET_PACKET_FLAG_NO_ALLOCATE);
    CHECK((char *)packet->data == lent);
    packet->freeCallback = give_back;
    enet_packet_destroy(packet);
    CHECK(given_back == 1);
}

/* libenet ends a program that finds no memory, unless it is told otherwise. */
static void ENET_CALLBACK go_on(void) {}

int main(void) {
    const ENetCallbacks callbacks = {NULL, NULL, go_on};
    if (enet_initialize_with_callbacks(ENET_VERSION, &callbacks) != 0) return 2;
    lengths();
    bytes();
    enet_deinitialize();
    printf("packets: %ld checks held, %ld did not\n", passed, failed);
    return passed > 0 && failed == 0 ? 0 : 1;
}
