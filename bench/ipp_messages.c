/* ipp_messages MODE COUNT < MESSAGE: decodes or encodes an IPP message COUNT times, as a floor and by libcups, for ipp_codec.py.

   `read` and `write` are ippReadIO and ippWriteIO of libcups. `decode` copies each name and each text or octets to memory of its own,
   keeps the values of an attribute in an array that doubles, tests no more than that the octets suffice, and frees all. `encode` writes
   that list into one array of the right length.
*/
#include <cups/cups.h>
#include <stdint.h>
#include <stdio.h>
#include <stdlib.h>
#include <string.h>

static unsigned char octets[1 << 20];
static size_t length;

/* ---- libcups ---- */

struct stream {
    unsigned char *octets;
    size_t at, length;
};

static ssize_t take(struct stream *s, ipp_uchar_t *out, size_t count) {
    size_t left = s->length - s->at;
    if (count > left) count = left;
    memcpy(out, s->octets + s->at, count);
    s->at += count;
    return (ssize_t)count;
}

static ssize_t give(struct stream *s, ipp_uchar_t *in, size_t count) {
    memcpy(s->octets + s->at, in, count);
    s->at += count;
    return (ssize_t)count;
}

static ipp_t *cups_read(void) {
    struct stream s = {octets, 0, length};
    ipp_t *message = ippNew();
    ipp_state_t state;
    while ((state = ippReadIO(&s, (ipp_iocb_t)take, 1, NULL, message)) != IPP_STATE_DATA)
        if (state == IPP_STATE_ERROR) exit(1);
    return message;
}

static void cups_write(ipp_t *message) {
    static unsigned char out[sizeof octets];
    struct stream s = {out, 0, sizeof out};
    ipp_state_t state;
    ippSetState(message, IPP_STATE_IDLE);
    while ((state = ippWriteIO(&s, (ipp_iocb_t)give, 1, NULL, message)) != IPP_STATE_DATA)
        if (state == IPP_STATE_ERROR) exit(1);
    if (s.at != length) exit(2);
}

/* ---- the floor ---- */

struct text {
    unsigned char *octets;
    size_t length, capacity;
};
struct value {
    unsigned tag;
    struct text a, b;
};
struct attribute {
    unsigned group;
    struct text name;
    struct value *values;
    size_t count, capacity;
};
static struct attribute *attributes;
static size_t attribute_count, attribute_capacity;

static struct text copied(const unsigned char *from, size_t count) {
    struct text t = {malloc(count ? count : 1), count, count};
    memcpy(t.octets, from, count);
    return t;
}

static size_t number(size_t at) {
    if (length < at + 2) exit(1);
    return (size_t)octets[at] << 8 | octets[at + 1];
}

static void floor_decode(void) {
    size_t at = 8;
    unsigned group = 0;
    attribute_count = attribute_capacity = 0;
    attributes = NULL;
    while (octets[at] != 3) {
        unsigned tag = octets[at++];
        if (tag < 16) {
            group = tag;
            continue;
        }
        size_t name = number(at);
        if (name) {
            if (attribute_count == attribute_capacity) {
                attribute_capacity = attribute_capacity ? 2 * attribute_capacity : 4;
                attributes = realloc(attributes, attribute_capacity * sizeof *attributes);
            }
            attributes[attribute_count++] = (struct attribute){group, copied(octets + at + 2, name), NULL, 0, 0};
        }
        at += 2 + name;
        size_t count = number(at);
        struct attribute *a = &attributes[attribute_count - 1];
        if (a->count == a->capacity) {
            a->capacity = a->capacity ? 2 * a->capacity : 4;
            a->values = realloc(a->values, a->capacity * sizeof *a->values);
        }
        struct value *v = &a->values[a->count++];
        *v = (struct value){tag, {0}, {0}};
        if (length < at + 2 + count) exit(1);
        if (count && (tag == 0x30 || tag >= 0x35) && tag != 0x37) v->a = copied(octets + at + 2, count);
        else memcpy(&v->b, octets + at + 2, count < sizeof v->b ? count : sizeof v->b), v->a.length = count;
        at += 2 + count;
    }
}

static void floor_free(void) {
    for (size_t i = 0; i < attribute_count; i++) {
        struct attribute *a = &attributes[i];
        for (size_t k = 0; k < a->count; k++) free(a->values[k].a.octets);
        free(a->values);
        free(a->name.octets);
    }
    free(attributes);
}

static unsigned char *put(unsigned char *out, const void *from, size_t count) {
    *out++ = (unsigned char)(count >> 8);
    *out++ = (unsigned char)count;
    memcpy(out, from, count);
    return out + count;
}

static void floor_encode(void) {
    unsigned char *out = malloc(length), *at = out + 8;
    unsigned group = 0;
    memcpy(out, octets, 8);
    for (size_t i = 0; i < attribute_count; i++) {
        struct attribute *a = &attributes[i];
        if (a->group != group) *at++ = (unsigned char)(group = a->group);
        for (size_t k = 0; k < a->count; k++) {
            struct value *v = &a->values[k];
            *at++ = (unsigned char)v->tag;
            at = put(at, a->name.octets, k ? 0 : a->name.length);
            at = put(at, v->a.octets ? (void *)v->a.octets : (void *)&v->b, v->a.length);
        }
    }
    *at++ = 3;
    if ((size_t)(at - out) != length || memcmp(out, octets, length)) exit(2);
    free(out);
}

int main(int count, char **words) {
    if (count != 3) return 2;
    size_t calls = strtoul(words[2], NULL, 10);
    length = fread(octets, 1, sizeof octets, stdin);
    if (!strcmp(words[1], "read"))
        for (size_t i = 0; i < calls; i++) ippDelete(cups_read());
    else if (!strcmp(words[1], "write")) {
        ipp_t *message = cups_read();
        for (size_t i = 0; i < calls; i++) cups_write(message);
    } else if (!strcmp(words[1], "decode"))
        for (size_t i = 0; i < calls; i++) floor_decode(), floor_free();
    else if (!strcmp(words[1], "encode")) {
        floor_decode();
        for (size_t i = 0; i < calls; i++) floor_encode();
    } else
        return 2;
    return 0;
}
