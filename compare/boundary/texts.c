/* Texts cut at each byte and random ones, by pq_read_text; and what ISO texts and padded texts have in common with them: a
 * text read from a buffer of exactly its length, and a jumble of bytes. */
#include "damaged.h"
#include <stdlib.h>
#include <string.h>

pq_answer read_by(const char *what, reader *get, uint32_t kind, const void *bytes, size_t length) {
    uint8_t *text = exact(bytes, length);
    pq_answer answer = get(kind, text, length);
    told(what, kind, (uint32_t)length, answer.refusal, answer.value);
    if (is_kind(kind) && (length > LIMIT) != (answer.refusal == 1))
        fault("a text's limit", kind, (uint32_t)length);
    if (length > 0 && memcmp(text, bytes, length) != 0)
        fault("a text changed", kind, (uint32_t)length);
    free(text);
    return answer;
}

void jumble(asker *read, const char *telling, size_t longest) {
    for (int round = 0; round < 20000; round++) {
        uint8_t bytes[LONGEST];
        size_t length = random_word() % (longest + 1);
        for (size_t i = 0; i < length; i++)
            bytes[i] = round % 2 ? (uint8_t)random_word() : (uint8_t)telling[random_word() % 13];
        read(kinds[random_word() % KINDS], bytes, length);
    }
}

static void read_text(uint32_t kind, const void *bytes, size_t length) {
    read_by("read text", pq_read_text, kind, bytes, length);
}

void texts(void) {
    static const char *const whole[] = {
        "1444.11.11", "1444.1.1", "1444.11.1", "1444.1.11", "-32768.12.31.24", "+144.01.01", "43808760", "-8760",
        "1444.11.11.23", "0000000001444.1.1", "18446744073709551616.1.1", "-", "+", ".", "1444.", "1444.1", "1444.1.",
        "1444.1.1.", "1444.11.11.1x", "9223372036854775808", "-9223372036854775808", "99999999999999999999999999999999"};
    for (size_t place = 0; place < sizeof whole / sizeof whole[0]; place++)
        for (size_t length = 0; length <= strlen(whole[place]); length++)
            for (size_t k = 0; k < KINDS; k++)
                read_text(kinds[k], whole[place], length);
    jumble(read_text, "0123456789.-+", 40);
}
