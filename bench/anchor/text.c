// Texts that grow, and base64.
#include "anchor.h"
#include <stdarg.h>
#include <stdio.h>
#include <stdlib.h>
#include <string.h>

static const char LETTERS[] = "ABCDEFGHIJKLMNOPQRSTUVWXYZabcdefghijklmnopqrstuvwxyz0123456789+/";

static char *grown(struct text *to, size_t more)
{
    if (to->length + more > to->room) {
        to->room = 2 * (to->length + more);
        to->at = realloc(to->at, to->room);
        if (!to->at)
            fail("memory");
    }
    char *at = to->at + to->length;
    to->length += more;
    return at;
}

void put(struct text *to, const void *at, size_t length)
{
    memcpy(grown(to, length), at, length);
}

void put_text(struct text *to, const char *it)
{
    put(to, it, strlen(it));
}

void put_form(struct text *to, const char *form, ...)
{
    char written[256];
    va_list values;
    va_start(values, form);
    put(to, written, (size_t)vsnprintf(written, sizeof written, form, values));
    va_end(values);
}

void put_base64(struct text *to, struct piece bytes)
{
    const unsigned char *from = (const unsigned char *)bytes.at;
    char *out = grown(to, (bytes.length + 2) / 3 * 4);
    size_t left = bytes.length;
    for (; left >= 3; left -= 3, from += 3, out += 4) {
        unsigned three = (unsigned)from[0] << 16 | (unsigned)from[1] << 8 | from[2];
        out[0] = LETTERS[three >> 18];
        out[1] = LETTERS[three >> 12 & 63];
        out[2] = LETTERS[three >> 6 & 63];
        out[3] = LETTERS[three & 63];
    }
    if (left) {
        unsigned two = (unsigned)from[0] << 8 | (left == 2 ? from[1] : 0);
        out[0] = LETTERS[two >> 10];
        out[1] = LETTERS[two >> 4 & 63];
        out[2] = left == 2 ? LETTERS[two << 2 & 63] : '=';
        out[3] = '=';
    }
}

// Three bytes of four letters, or -1.
static int read_four(const unsigned char *four)
{
    static signed char values[256];
    if (!values[0]) {
        memset(values, -1, sizeof values);
        for (int n = 0; n < 64; n++)
            values[(unsigned char)LETTERS[n]] = (signed char)n;
    }
    int a = values[four[0]], b = values[four[1]], c = values[four[2]], d = values[four[3]];
    return (a | b | c | d) < 0 ? -1 : a << 18 | b << 12 | c << 6 | d;
}

bool read_base64(struct text *to, struct piece it)
{
    size_t pads = 0, fours = it.length / 4;
    while (pads < 2 && pads < it.length && it.at[it.length - 1 - pads] == '=')
        pads++;
    char *out = grown(to, 3 * fours);
    for (size_t at = 0; at < fours; at++, out += 3) {
        unsigned char last[4] = {0}, from = (unsigned char)(at + 1 == fours ? 4 - pads : 4);
        memcpy(last, it.at + 4 * at, 4);
        for (; from < 4; from++)
            last[from] = 'A';
        int three = read_four(last);
        if (three < 0)
            return false;
        out[0] = (char)(three >> 16);
        out[1] = (char)(three >> 8);
        out[2] = (char)three;
    }
    to->length -= pads;
    return it.length % 4 == 0 && (!pads || (out[-1] == 0 && (pads == 1 || out[-2] == 0)));
}

bool is(struct piece it, const char *text)
{
    return strlen(text) == it.length && !memcmp(it.at, text, it.length);
}
