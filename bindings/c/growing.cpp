// The growing arena in C++.
#include "arena_growing.h"
#include <cassert>
#include <cstdio>
#include <new>

struct Node {
    int value;
    Node *next;
};

int main() {
    arena a = ARENA_EMPTY_ALIGNED(8);
    Node *list = nullptr;
    for (int i = 0; i < 10000; i++) list = new (arena_alloc(&a, sizeof(Node), alignof(Node))) Node{i, list};
    long sum = 0;
    for (Node *node = list; node; node = node->next) sum += node->value;
    assert(sum == 49995000 && a.newest->older);
    arena_reset(&a);
    assert(!a.newest->older && a.at.cursor == a.at.end);
    arena_free_all(&a);
    std::puts("C++: 10000 nodes");
    return 0;
}
