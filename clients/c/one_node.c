/* A node alone, whose log is in memory, answers a client.
 *
 *     cc -o one_node one_node.c ../../crates/service_c/out/unproved/libservice_c.a /opt/rattle/c/liblibc_c.a && ./one_node
 */
#include "service.h"
#include <stdio.h>
#include <stdlib.h>
#include <string.h>

static uint8_t settings[512];
static size_t settings_count;

static void number(uint64_t value) {
    for (int place = 0; place < 8; place++) settings[settings_count++] = (uint8_t)(value >> (8 * place));
}

static void text(const char *value) {
    number(strlen(value));
    memcpy(settings + settings_count, value, strlen(value));
    settings_count += strlen(value);
}

/* Hands in an input, and does what comes of it: a real program would send frames, and append to a file. */
static void call(void *node, uint32_t input, uint64_t first, const void *bytes, size_t count) {
    static const uint8_t nothing[8];
    uint8_t out[65536];
    uint64_t appended = 0;
    uint32_t code = wachelpo_call(node, input, first, 7, bytes ? bytes : nothing, count);
    size_t end = wachelpo_read(node, out, sizeof out);
    for (size_t at = 0; at + 16 <= end;) {
        uint32_t head[2];
        uint64_t about;
        memcpy(head, out + at, 8);
        memcpy(&about, out + at + 8, 8);
        const char *body = (const char *)out + at + 16;
        at += 16 + head[1];
        if (head[0] == WACHELPO_OUT_CLIENT) printf("%.*s", (int)head[1], body);
        if (head[0] == WACHELPO_OUT_APPEND) appended = about;
        if (head[0] == WACHELPO_OUT_ERROR) fprintf(stderr, "%.*s\n", (int)head[1], body);
    }
    if (code != WACHELPO_OK) exit(1);
    if (appended) call(node, WACHELPO_FLUSHED, appended, NULL, 0);
}

/* What waits for nothing on disk leaves, before and after bytes are appended. */
static void put_out(void *node) {
    call(node, WACHELPO_FLUSHED, 0, NULL, 0);
    call(node, WACHELPO_WRITE, 0, NULL, 0);
    call(node, WACHELPO_FLUSHED, 0, NULL, 0);
}

int main(void) {
    static const uint64_t limits[] = {1000, 1000, 256, 0, 0, 1000, 100, 1000, 5000, 100, 64 << 20, 1 << 20, 16 << 20, 65536, 1 << 20,
                                      512 << 20, 64 << 20, 1ull << 32, 1 << 20, 1 << 20, 2 << 20, 1024, 1000, 0};
    static const uint64_t now[] = {1700000000000};
    static const char request[] = "SET a 1\r\nINCR a\r\n";
    static void *node; /* valid until the program ends */
    if (wachelpo_version() != WACHELPO_SERVICE_VERSION || wachelpo_node(&node) != 0) return 1;
    number(2), number(7), number(1);                    /* version, cluster, id */
    number(1), number(1), text("127.0.0.1"), number(6379); /* one node, and where clients reach it */
    number(1), number(1);                               /* the first voters */
    for (size_t place = 0; place < sizeof limits / 8; place++) number(limits[place]);
    text("");
    number(100); /* clients */
    call(node, WACHELPO_SETTINGS, 0, settings, settings_count);
    call(node, WACHELPO_OPEN, 0, NULL, 0);
    call(node, WACHELPO_TICK, 1, now, 8);
    call(node, WACHELPO_INITIALIZE, 0, NULL, 0);
    put_out(node);
    for (int tick = 0; tick < 500; tick++) { /* until it leads */
        call(node, WACHELPO_TICK, 10, now, 8);
        put_out(node);
    }
    call(node, WACHELPO_CONNECT, 1, NULL, 0);
    call(node, WACHELPO_CLIENT, 1, request, sizeof request - 1);
    put_out(node);
    return (int)wachelpo_close(node);
}
