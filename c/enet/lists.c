/* Lists of nodes that lie in what they list. */
#include "layer.h"

void enet_list_clear(ENetList *list) { list->sentinel.next = list->sentinel.previous = &list->sentinel; }

ENetListIterator enet_list_insert(ENetListIterator place, void *data) {
    ENetListNode *node = data;
    *node = (ENetListNode){.next = place, .previous = place->previous};
    node->previous->next = place->previous = node;
    return node;
}

void *enet_list_remove(ENetListIterator place) {
    place->previous->next = place->next;
    place->next->previous = place->previous;
    return place;
}

ENetListIterator enet_list_move(ENetListIterator place, void *from, void *to) {
    ENetListNode *first = from, *last = to;
    first->previous->next = last->next;
    last->next->previous = first->previous;
    first->previous = place->previous;
    last->next = place;
    first->previous->next = first;
    place->previous = last;
    return first;
}

size_t enet_list_size(ENetList *list) {
    size_t size = 0;
    for (const ENetListNode *node = enet_list_begin(list); node != enet_list_end(list); node = node->next) size++;
    return size;
}
