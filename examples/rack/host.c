#include "host.h"

#define REFUSAL(number, sentence) [number] = sentence,
static const char *const sentences[] = {
#include "refusals.inc"
};
#undef REFUSAL

static const char *sentence_of(uint32_t number)
{
    const char *sentence = number < sizeof sentences / sizeof *sentences ? sentences[number] : NULL;
    return sentence ? sentence : "a refusal that this program does not know";
}

size_t load(const char *path, uint8_t *text, size_t size)
{
    FILE *file = fopen(path, "rb");
    if (!file)
        return 0;
    size_t length = fread(text, 1, size, file);
    if (ferror(file))
        length = 0;
    fclose(file);
    return length;
}

/* The line with this number, and a mark under the place. A byte that may not stand there is shown as a question mark. */
static void mark(const uint8_t *text, size_t length, uint32_t line, uint32_t byte, FILE *out)
{
    size_t at = 0;
    for (uint32_t i = 1; i < line; i++) {
        while (at < length && text[at] != '\n')
            at++;
        at++;
    }
    for (; at < length && text[at] != '\n'; at++)
        fputc(text[at] < 32 || text[at] > 126 ? '?' : text[at], out);
    fprintf(out, "\n%*s\n", (int)byte, "^");
}

int refused(uint64_t answer, const uint8_t *text, size_t length, FILE *out)
{
    uint32_t number = RUNIN_NUMBER(answer), line = RUNIN_LINE(answer), byte = RUNIN_BYTE(answer);
    if (number == RUNIN_ACCEPTED)
        return 0;
    fprintf(out, "refused %u line %u byte %u: %s\n", number, line, byte, sentence_of(number));
    if (text && byte)
        mark(text, length, line, byte, out);
    return 1;
}
