/*
 * Checks a log of accepted operations: check_log N [FILE]
 *
 * Reads the log of a board of N members from FILE or from standard input, and prints `yes` (status 0) or `no` (status 1): does it hold, as
 * include/concur.h says of concur_log_check? Where the check refuses it, prints `refused: NUMBER` (status 1).
 *
 * A row is a line: member, type (1 read, 2 write), slot, value, begin, acceptance and end (0 where there is none), with one space between.
 * The value is its 32 bytes as 64 hexadecimal digits, the others are numbers in base ten, below 2^32 and without leading zeros. A line of
 * another form is named on standard error (status 2).
 */
#include <concur.h>
#include <stdio.h>
#include <stdlib.h>
#include <string.h>

enum { VALUE_AT = 3, VALUE_WORDS = 8, ROW_WORDS = 14, MOST_ROWS = 1024 };

/* The digits of a word of a value, and the most bytes of a row: a value, six numbers, six spaces. */
enum { WORD_DIGITS = 8, VALUE_DIGITS = VALUE_WORDS * WORD_DIGITS, LONGEST = VALUE_DIGITS + 6 * 10 + 6 };

/* One row more than the check takes is enough for its number 34. */
static uint32_t rows[(MOST_ROWS + 1) * ROW_WORDS];

/* A line, with a byte more than a row can have, so that one that is too long shows, and a zero byte at its end. */
static char line[LONGEST + 2];
static size_t length;

/* Reads the next line, without its line feed, as far as there is room. The answer is 0 at the end of the input. */
static int next_line(FILE *input)
{
    int byte;
    length = 0;
    while ((byte = getc(input)) != EOF && byte != '\n')
        if (length <= LONGEST)
            line[length++] = (char)byte;
    line[length] = '\0';
    return byte == '\n' || length > 0;
}

/* Reads a number. The answer is what follows it, or NULL where none of the right form stands there. */
static const char *read_number(const char *text, uint32_t *number)
{
    uint64_t value = 0;
    const char *at = text;
    while (*at >= '0' && *at <= '9' && value <= UINT32_MAX)
        value = value * 10 + (uint64_t)(*at++ - '0');
    if (at == text || (*text == '0' && at > text + 1) || value > UINT32_MAX)
        return NULL;
    *number = (uint32_t)value;
    return at;
}

/* The same for a value, whose first digits are the first word's. */
static const char *read_value(const char *text, uint32_t *value)
{
    char digits[WORD_DIGITS + 1] = "";
    if (strspn(text, "0123456789abcdefABCDEF") < VALUE_DIGITS)
        return NULL;
    for (int i = 0; i < VALUE_WORDS; i++) {
        memcpy(digits, text + i * WORD_DIGITS, WORD_DIGITS);
        value[i] = (uint32_t)strtoul(digits, NULL, 16);
    }
    return text + VALUE_DIGITS;
}

/* Reads the line as a row. The answer is 0 where it has another form. */
static int read_row(uint32_t *row)
{
    const char *at = line;
    for (int i = 0; i < ROW_WORDS; i += i == VALUE_AT ? VALUE_WORDS : 1) {
        if (i > 0 && *at++ != ' ')
            return 0;
        at = i == VALUE_AT ? read_value(at, row + i) : read_number(at, row + i);
        if (at == NULL)
            return 0;
    }
    return at == line + length;
}

/* Reads the log, up to one row too many. The answer is how many words it has. */
static size_t read_log(FILE *input)
{
    size_t words = 0;
    for (unsigned long place = 1; place <= MOST_ROWS + 1 && next_line(input); place++, words += ROW_WORDS) {
        if (!read_row(rows + words)) {
            fprintf(stderr, "check_log: line %lu is not a row\n", place);
            exit(2);
        }
    }
    if (ferror(input)) {
        perror("check_log");
        exit(2);
    }
    return words;
}

int main(int count, char **words)
{
    uint32_t n = 0, verdict = 0;
    const char *rest = count == 2 || count == 3 ? read_number(words[1], &n) : NULL;
    if (rest == NULL || *rest != '\0') {
        fprintf(stderr, "usage: check_log N [FILE]\n");
        return 2;
    }
    if (count == 3 && freopen(words[2], "rb", stdin) == NULL) {
        perror(words[2]);
        return 2;
    }
    uint32_t number = concur_log_check(rows, read_log(stdin), n, &verdict, 1);
    if (number != 0)
        printf("refused: %lu\n", (unsigned long)number);
    else
        puts(verdict == 1 ? "yes" : "no");
    return number == 0 && verdict == 1 ? 0 : 1;
}
