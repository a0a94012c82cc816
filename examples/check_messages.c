/*
 * Checks messages as a gateway would: check_messages N [FILE]
 *
 * Reads messages for a board of N members, one after the other, from FILE or from standard input, and prints a line for each: its place in
 * the input, how many bytes it has, and the number that the check answers (0 for a good message; include/concur.h lists the others).
 * A message is two bytes of length and then as many bytes; what is left at the end, if it is less, counts as one last damaged message.
 */
#include <concur.h>
#include <errno.h>
#include <stdio.h>
#include <stdlib.h>

/* The longest message that two bytes of length allow. */
enum { HEAD = 2, LONGEST = HEAD + 65535 };

static uint8_t message[LONGEST];

/* Reads the next message. The answer is how many bytes there were: 0 at the end of the input. */
static size_t next_message(FILE *input)
{
    size_t got = fread(message, 1, HEAD, input);
    if (got < HEAD)
        return got;
    size_t follow = (size_t)message[0] * 256 + message[1];
    return HEAD + fread(message + HEAD, 1, follow, input);
}

/* Reads n in base ten. Whether it is 1 to 12 is left to the check, so that the answer is its number 1. */
static int read_n(const char *word, uint32_t *n)
{
    char *end;
    errno = 0;
    unsigned long value = strtoul(word, &end, 10);
    if (word[0] < '0' || word[0] > '9' || *end != '\0' || errno != 0 || value > UINT32_MAX)
        return 0;
    *n = (uint32_t)value;
    return 1;
}

int main(int count, char **words)
{
    uint32_t n;
    if (count < 2 || count > 3 || !read_n(words[1], &n)) {
        fprintf(stderr, "usage: check_messages N [FILE]\n");
        return 2;
    }
    FILE *input = count == 3 ? fopen(words[2], "rb") : stdin;
    if (input == NULL) {
        perror(words[2]);
        return 2;
    }
    size_t length;
    for (unsigned long place = 1; (length = next_message(input)) > 0; place++)
        printf("%lu %lu %lu\n", place, (unsigned long)length, (unsigned long)concur_message_check(message, length, n));
    if (ferror(input)) {
        perror("check_messages");
        return 2;
    }
    return 0;
}
