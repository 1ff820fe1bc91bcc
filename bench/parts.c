// Stretches of bytes, and the notation of patterns.
#include "parts.h"

static uint8_t kept[8 << 20];
static size_t begun, used;

void begin_part(void)
{
    begun = used;
}

void put(unsigned byte)
{
    if (used == sizeof kept) {
        printf("the inputs need more room than parts.c has\n");
        exit(2);
    }
    kept[used++] = (uint8_t)byte;
}

void put_two(unsigned number)
{
    put(number & 255);
    put(number >> 8);
}

Part end_part(void)
{
    return (Part){kept + begun, used - begun};
}

// The length of the word at the start of the text.
static size_t word(const char *text)
{
    size_t length = 0;
    while (text[length] != 0 && text[length] != ' ')
        length++;
    return length;
}

static const char *next_word(const char *text)
{
    text += word(text);
    return *text == ' ' ? text + 1 : text;
}

static unsigned count_words(const char *text)
{
    unsigned count = 0;
    for (; *text != 0; text = next_word(text))
        count++;
    return count;
}

static unsigned long decimal(const char *text)
{
    unsigned long number = 0;
    for (; *text >= '0' && *text <= '9'; text++)
        number = 10 * number + (unsigned long)(*text - '0');
    return number;
}

static unsigned hexadecimal_digit(char digit)
{
    return digit <= '9' ? (unsigned)(digit - '0') : (unsigned)(digit - 'a' + 10);
}

static bool ends_name(char c)
{
    return c == 0 || c == ' ' || c == '/' || c == '[' || c == ']';
}

static size_t name_length(const char *text)
{
    size_t length = 0;
    while (!ends_name(text[length]))
        length++;
    return length;
}

// The number of the label whose name starts the text; 0 for any.
static unsigned label_number(const char *labels, const char *text)
{
    size_t length = name_length(text);
    if (length == 1 && *text == '*')
        return 0;
    unsigned number = 1;
    for (; *labels != 0; labels = next_word(labels), number++)
        if (word(labels) == length && memcmp(labels, text, length) == 0)
            return number;
    printf("no label for the pattern at %s\n", text);
    exit(2);
}

// Puts the steps that the text names below a parent, counting them, and gives where the text goes on.
static const char *put_steps(const char *labels, const char *text, unsigned parent, uint8_t *count)
{
    while (*text == '[')
        text = put_steps(labels, text + 1, parent, count) + 1;
    if (*text != '/')
        return text;
    unsigned axis = text[1] == '/';
    text += 1 + axis;
    put(parent);
    put(axis);
    put(label_number(labels, text));
    ++*count;
    return put_steps(labels, text + name_length(text), *count, count);
}

static void put_pattern(const char *labels, const char *text)
{
    uint8_t *count = kept + used;
    put(0);
    if (*text != '.')
        put_steps(labels, text, 0, count);
}

static void put_labels(const char *labels)
{
    put(count_words(labels));
    for (; *labels != 0; labels = next_word(labels)) {
        put((unsigned)word(labels));
        for (size_t i = 0; i < word(labels); i++)
            put((uint8_t)labels[i]);
    }
}

Part bytes_of(const char *text)
{
    begin_part();
    for (; *text != 0; text = next_word(text))
        put(16 * hexadecimal_digit(text[0]) + hexadecimal_digit(text[1]));
    return end_part();
}

Part pattern_of(const char *labels, const char *text)
{
    begin_part();
    put_pattern(labels, text);
    return end_part();
}

Part sheet_of(const char *labels, const char *text)
{
    begin_part();
    put_labels(labels);
    put(count_words(text));
    for (; *text != 0; text = next_word(text))
        put_pattern(labels, text);
    return end_part();
}

// Each entry is its members, as one decimal number, and its pattern.
Part table_of(const char *labels, const char *text)
{
    begin_part();
    put(count_words(text) / 2);
    for (; *text != 0; text = next_word(text)) {
        uint64_t members = decimal(text);
        for (unsigned i = 0; i < 8; i++)
            put(members >> (8 * i) & 255);
        text = next_word(text);
        put_pattern(labels, text);
    }
    return end_part();
}

// Each node is its parent's number and its label's, in decimal.
Part document_of(const char *labels, const char *text)
{
    begin_part();
    put_labels(labels);
    put_two(count_words(text) / 2);
    for (; *text != 0; text = next_word(text)) {
        put_two((unsigned)decimal(text));
        text = next_word(text);
        put((unsigned)decimal(text));
    }
    return end_part();
}
