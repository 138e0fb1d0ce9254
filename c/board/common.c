/* The few functions of the C library that the programs need, for processors that have none here: as short as can be,
 * and no faster than they have to be. */
#include "machine.h"

/* ---- Bytes ---------------------------------------------------------------------------------- */

void *memcpy(void *to, const void *from, size_t n)
{
    uint8_t *t = to;
    const uint8_t *f = from;

    while (n-- > 0)
        *t++ = *f++;
    return to;
}

void *memmove(void *to, const void *from, size_t n)
{
    uint8_t *t = to;
    const uint8_t *f = from;

    if ((uintptr_t)t <= (uintptr_t)f)
        return memcpy(to, from, n);
    while (n-- > 0)
        t[n] = f[n];
    return to;
}

void *memset(void *to, int byte, size_t n)
{
    uint8_t *t = to;

    while (n-- > 0)
        *t++ = (uint8_t)byte;
    return to;
}

int memcmp(const void *a, const void *b, size_t n)
{
    const uint8_t *x = a, *y = b;

    for (; n > 0; n--, x++, y++)
        if (*x != *y)
            return *x < *y ? -1 : 1;
    return 0;
}

/* ---- Texts ---------------------------------------------------------------------------------- */

size_t strlen(const char *text)
{
    size_t n = 0;

    while (text[n] != 0)
        n++;
    return n;
}

size_t strspn(const char *text, const char *allowed)
{
    size_t n = 0;

    for (; text[n] != 0; n++) {
        const char *one = allowed;

        while (*one != 0 && *one != text[n])
            one++;
        if (*one == 0)
            break;
    }
    return n;
}

unsigned long long strtoull(const char *text, char **end, int base)
{
    unsigned long long number = 0;

    for (; *text >= '0' && *text <= '9'; text++)
        number = number * (unsigned)base + (unsigned)(*text - '0');
    if (end != NULL)
        *end = (char *)text;
    return number;
}

int atoi(const char *text)
{
    return (int)strtoull(text, NULL, 10);
}

/* ---- Printing ------------------------------------------------------------------------------- */

/* Where a text is laid: what has no room is counted, not laid. */
struct page {
    char *text;
    size_t room, length;
};

static void lay(struct page *page, char letter)
{
    if (page->length < page->room)
        page->text[page->length] = letter;
    page->length++;
}

/* A text in its width: to the left where the width is negative, else filled in front. */
static void lay_text(struct page *page, const char *text, int width, char filling)
{
    int length = (int)strlen(text);

    for (; width > length; width--)
        lay(page, filling);
    for (int i = 0; i < length; i++)
        lay(page, text[i]);
    for (; -width > length; width++)
        lay(page, ' ');
}

static void lay_number(struct page *page, unsigned long number, int width, char filling)
{
    char digits[24];
    size_t at = sizeof digits - 1;

    digits[at] = 0;
    do {
        digits[--at] = (char)('0' + number % 10);
        number /= 10;
    } while (number > 0);
    lay_text(page, digits + at, width, filling);
}

/* One form behind a per cent sign: a minus or a zero, a width, an l, and d, u or s. Gives the place behind it. */
static const char *lay_form(struct page *page, const char *form, __builtin_va_list *given)
{
    int left = *form == '-', is_long;
    char filling = *form == '0' ? '0' : ' ';
    char *behind;
    int width = (int)strtoull(form + left, &behind, 10);

    form = behind;
    is_long = *form == 'l';
    form += is_long;
    if (left)
        width = -width;
    if (*form == 's')
        lay_text(page, __builtin_va_arg(*given, const char *), width, ' ');
    else if (is_long)
        lay_number(page, __builtin_va_arg(*given, unsigned long), width, filling);
    else
        lay_number(page, __builtin_va_arg(*given, unsigned), width, filling);
    return form + 1;
}

static int lay_forms(char *text, size_t room, const char *form, __builtin_va_list *given)
{
    struct page page = {text, room, 0};

    while (*form != 0)
        if (*form == '%') {
            form = lay_form(&page, form + 1, given);
        } else {
            lay(&page, *form++);
        }
    if (room > 0)
        text[page.length < room ? page.length : room - 1] = 0;
    return (int)page.length;
}

int snprintf(char *text, size_t room, const char *form, ...)
{
    __builtin_va_list given;
    int length;

    __builtin_va_start(given, form);
    length = lay_forms(text, room, form, &given);
    __builtin_va_end(given);
    return length;
}

int sprintf(char *text, const char *form, ...)
{
    __builtin_va_list given;
    int length;

    __builtin_va_start(given, form);
    length = lay_forms(text, SIZE_MAX, form, &given);
    __builtin_va_end(given);
    return length;
}

/* Longer lines are not printed by any of the programs; what is beyond would be cut off. */
int printf(const char *form, ...)
{
    char line[512];
    __builtin_va_list given;
    int length;

    __builtin_va_start(given, form);
    length = lay_forms(line, sizeof line, form, &given);
    __builtin_va_end(given);
    write(1, line, strlen(line));
    return length;
}

/* ---- Memory --------------------------------------------------------------------------------- */

/* Memory is taken from one pool and never given back. All of it starts at multiples of a fence, so that a machine
 * that can guard only such parts can guard these. */
#define STEP 65536u
static uint8_t pool[32 * STEP] __attribute__((aligned(STEP)));
static size_t taken;

void *malloc(size_t n)
{
    size_t wanted = (n + STEP - 1) / STEP * STEP;
    void *memory = pool + taken;

    if (wanted > sizeof pool - taken)
        return NULL;
    taken += wanted;
    return memory;
}

void *mmap(void *at, size_t n, int allowed, int flags, int file, long offset)
{
    void *memory = malloc(n);

    (void)at, (void)allowed, (void)flags, (void)file, (void)offset;
    return memory == NULL ? SYS_NO_MAP : memory;
}
