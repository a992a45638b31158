#include "octets.h"

#include <errno.h>
#include <stdarg.h>
#include <stdio.h>
#include <string.h>

#include "program.h"
#include "textform.h"

enum {
    TEXT_MOST = 1 << 20, /* characters of a text: comments alone decide nothing, and may have no end */
    WORD_SHOWN = 32
};

/* Where the reading of a hex text is. */
struct text {
    uint32_t line;
    bool comment;
    size_t characters;
    size_t digits; /* of the word so far */
    int high;      /* the latest of them */
    char word[WORD_SHOWN];
};

/* Tab, line feed and carriage return stand in texts, too. */
static bool is_control(int character)
{
    return (character < 0x20 && character != '\t' && character != '\n' && character != '\r') || character == 0x7F;
}

int hex_digit(int character)
{
    if (character >= '0' && character <= '9')
        return character - '0';
    if (character >= 'A' && character <= 'F')
        return character - 'A' + 10;
    if (character >= 'a' && character <= 'f')
        return character - 'a' + 10;
    return -1;
}

__attribute__((format(printf, 3, 4))) static int fault(const struct octets *octets, const struct text *text,
                                                       const char *format, ...)
{
    va_list arguments;
    va_start(arguments, format);
    fprintf(stderr, "%s:%u: ", octets->name, text->line);
    vfprintf(stderr, format, arguments);
    putc('\n', stderr);
    va_end(arguments);
    return EXIT_USAGE;
}

static int no_digit(const struct octets *octets, const struct text *text, int character)
{
    if (character > ' ' && character <= '~')
        return fault(octets, text, "'%c' is not a hex digit", character);
    return fault(octets, text, "octet %02X is not a hex digit", (unsigned)character);
}

static int end_word(const struct octets *octets, struct text *text)
{
    size_t digits = text->digits;
    text->digits = 0;
    if (digits % 2 == 0)
        return EXIT_GOOD;
    int shown = (int)(digits < WORD_SHOWN ? digits : WORD_SHOWN);
    return fault(octets, text, "odd number of hex digits in '%.*s%s'", shown, text->word,
                 digits > WORD_SHOWN ? "..." : "");
}

static void add_digit(struct octets *octets, struct text *text, int character)
{
    if (text->digits < WORD_SHOWN)
        text->word[text->digits] = (char)character;
    if (text->digits++ % 2 == 1)
        octets_add(octets, (uint8_t)(text->high << 4 | hex_digit(character)), text->line);
    text->high = hex_digit(character);
}

static int take_character(struct octets *octets, struct text *text, int character)
{
    int status = EXIT_GOOD;
    if (++text->characters > TEXT_MOST)
        return fault(octets, text, "a text of over %d characters is not read", TEXT_MOST);
    if (text->comment && character != '\n')
        return EXIT_GOOD;
    if (hex_digit(character) >= 0)
        add_digit(octets, text, character);
    else if (strchr("# \t\r\n", character) && character)
        status = end_word(octets, text);
    else
        status = no_digit(octets, text, character);
    text->comment = character == '#';
    if (character == '\n')
        text->line++;
    return status;
}

/* Takes hex text until a character is at fault or there are octets too many. */
static int take_hex(struct octets *octets, const uint8_t *characters, size_t count)
{
    struct text text = {.line = 1};
    int status = EXIT_GOOD;
    for (size_t i = 0; i < count && status == EXIT_GOOD && octets->length <= OCTETS_MOST; i++)
        status = take_character(octets, &text, characters[i]);
    if (status == EXIT_GOOD && octets->length <= OCTETS_MOST)
        status = end_word(octets, &text);
    return status;
}

/* Takes the whole lines of a text form that is too long to be read to its end, since one of them may be at fault. */
static int take_long_text(struct octets *octets, const uint8_t *characters, size_t count)
{
    struct text text = {.line = 1};
    while (count > 0 && characters[count - 1] != '\n')
        count--;
    int status = textform_read(octets, characters, count);
    for (size_t i = 0; i < count; i++)
        text.line += characters[i] == '\n';
    if (status != EXIT_GOOD || octets->length > OCTETS_MOST)
        return status;
    return fault(octets, &text, "a text of over %d characters is not read", TEXT_MOST);
}

static int take_text(struct octets *octets, const uint8_t *characters, size_t count)
{
    static const uint8_t mark[] = {0xEF, 0xBB, 0xBF}; /* some editors put it before UTF-8 text */
    size_t skipped = count >= sizeof mark && memcmp(characters, mark, sizeof mark) == 0 ? sizeof mark : 0;
    characters += skipped;
    count -= skipped;
    octets->text = true;
    if (!textform_begins(characters, count))
        return take_hex(octets, characters, count);
    return count > TEXT_MOST ? take_long_text(octets, characters, count) : textform_read(octets, characters, count);
}

void octets_add(struct octets *octets, uint8_t octet, uint32_t line)
{
    if (octets->length > OCTETS_MOST)
        return;
    octets->at[octets->length] = octet;
    octets->line[octets->length++] = line;
}

/* The place of the first control character among octets that may be raw, or their number. */
static size_t find_control(const uint8_t *content, size_t count)
{
    size_t most = count < OCTETS_MOST + 1 ? count : OCTETS_MOST + 1, place = 0;
    while (place < most && !is_control(content[place]))
        place++;
    return place;
}

int octets_take(struct octets *octets, const char *name, const uint8_t *content, size_t count)
{
    size_t raw = count < OCTETS_MOST + 1 ? count : OCTETS_MOST + 1;
    octets->name = name;
    octets->text = false;
    octets->length = 0;
    octets->control = find_control(content, count);
    if (octets->control == raw)
        return take_text(octets, content, count);
    memcpy(octets->at, content, raw);
    octets->length = raw;
    return EXIT_GOOD;
}

/* Reads as much as decides what the file holds: of raw octets one too many, of a text one character too many. */
static int read_file(struct octets *octets, const char *name, FILE *file)
{
    static uint8_t content[TEXT_MOST + 1];
    size_t count = fread(content, 1, OCTETS_MOST + 1, file);
    if (find_control(content, count) == count)
        count += fread(content + count, 1, sizeof content - count, file);
    if (ferror(file))
        return complain(EXIT_FAILED, name, strerror(errno));
    return octets_take(octets, name, content, count);
}

int octets_read(struct octets *octets, const char *path)
{
    bool standard = strcmp(path, "-") == 0;
    FILE *file = standard ? stdin : fopen(path, "rb");
    if (!file)
        return complain(EXIT_FAILED, path, strerror(errno));
    int status = read_file(octets, standard ? "standard input" : path, file);
    if (!standard)
        fclose(file);
    return status;
}
