/* A chain of 1,024 sites, each with `wide` sources that are the site before it; the last is unfolded on a painted stack. */
#include <pthread.h>
#include <stdint.h>
#include <stdio.h>
#include <stdlib.h>
#include <string.h>

extern size_t probe_unfold(const uint8_t *sites, size_t length, uint16_t count, uint16_t site, uint8_t *room, size_t room_length);

static uint8_t sites[32768], room[8192];
static size_t answer;

static void *run(void *unused) {
    (void)unused;
    answer = probe_unfold(sites, sizeof sites, 1024, 1023, room, sizeof room);
    return 0;
}

int main(int argc, char **argv) {
    int wide = argc > 1 ? atoi(argv[1]) : 1;
    uint8_t argument[] = {2, 3, 0};
    memcpy(sites, argument, sizeof argument);
    for (int i = 1; i < 1024; i++) {
        uint8_t *slot = sites + 32 * i;
        uint8_t make_struct[] = {(uint8_t)(4 + 2 * wide), 9, 0, 1, (uint8_t)wide};
        memcpy(slot, make_struct, sizeof make_struct);
        for (int k = 0; k < wide; k++) {
            slot[5 + 2 * k] = (uint8_t)((i - 1) >> 8);
            slot[6 + 2 * k] = (uint8_t)((i - 1) & 255);
        }
    }
    size_t size = 4u << 20, clean = 0;
    uint8_t *stack = aligned_alloc(4096, size);
    memset(stack, 0xA5, size);
    pthread_attr_t with;
    pthread_t thread;
    pthread_attr_init(&with);
    pthread_attr_setstack(&with, stack, size);
    if (pthread_create(&thread, &with, run, 0)) return 1;
    pthread_join(thread, 0);
    while (clean < size && stack[clean] == 0xA5) clean++;
    if (answer == 1000000)
        printf("%d sources a site: refused, %zu bytes of stack\n", wide, size - clean);
    else
        printf("%d sources a site: %zu bytes unfolded, %zu bytes of stack\n", wide, answer, size - clean);
    return 0;
}
