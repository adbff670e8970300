/* Answers questions to the library, one a line, for tests/specification/run. Texts and cards are in hexadecimal,
 * - for none; sizes are in words, of diagnostics in records, of a card in bytes.
 *
 *     read TEXT NOTES BARS FIGURE DIAGNOSTICS
 *     card CARD NOTES BARS
 *     write TEXT NOTES BARS BYTES CHANGES {n|b WORD VALUE}   the records of a text, cut or lengthened to NOTES and BARS
 *                                                            words (-1: as they are), with so many words changed
 *     version
 *
 * An answer is a line of parts divided by |: the numbers of the result, and how many cells behind what is counted
 * aren't 0; the words of notes, of bars, of diagnostics; the card; whether the card reads back to the same records. */
#include <pae.h>
#include <stdio.h>
#include <stdlib.h>
#include <string.h>

#define DIAGNOSTIC_WORDS (sizeof(PaeDiagnostic) / 4)

/* Cells that held something before. */
static void *cells(size_t count, size_t size)
{
    void *made = malloc(count * size + 1);
    if (!made)
        exit(2);
    return memset(made, 0x55, count * size + 1);
}

static uint8_t *bytes_of(const char *hex, size_t *count)
{
    *count = *hex == '-' ? 0 : strlen(hex) / 2;
    uint8_t *bytes = cells(*count, 1);
    for (size_t i = 0; i < *count; i++) {
        unsigned byte;
        sscanf(hex + 2 * i, "%2x", &byte);
        bytes[i] = (uint8_t)byte;
    }
    return bytes;
}

static size_t next_size(void)
{
    return (size_t)strtol(strtok(NULL, " "), NULL, 10);
}

static size_t left_over(const int32_t *words, size_t from, size_t to)
{
    size_t count = 0;
    for (; from < to; from++)
        count += words[from] != 0;
    return count;
}

static void print_words(const int32_t *words, size_t count)
{
    printf("|");
    for (size_t i = 0; i < count; i++)
        printf("%d ", (int)words[i]);
}

static void print_card(const uint8_t *card, size_t count)
{
    printf("|");
    for (size_t i = 0; i < count; i++)
        printf("%02x", card[i]);
}

/* The card of records, and whether it reads back to them. */
static void print_round(const int32_t *notes, size_t notes_len, const int32_t *bars, size_t bars_len)
{
    size_t room = PAE_CARD_BYTES(notes_len / PAE_NOTE_WORDS, bars_len / PAE_BAR_WORDS);
    uint8_t *card = cells(room, 1);
    int32_t *notes_again = cells(notes_len, 4), *bars_again = cells(bars_len, 4);
    PaeCardWritten written = pae_write_card(notes, notes_len, bars, bars_len, card, room);
    PaeCardRead back = pae_read_card(card, written.length, notes_again, notes_len, bars_again, bars_len);
    print_card(card, written.length);
    printf("|%d", written.number == 0 && back.number == 0 && back.notes * PAE_NOTE_WORDS == notes_len
                      && back.bars * PAE_BAR_WORDS == bars_len && !memcmp(notes, notes_again, notes_len * 4)
                      && !memcmp(bars, bars_again, bars_len * 4));
    free(card);
    free(notes_again);
    free(bars_again);
}

static void answer_read(void)
{
    size_t text_len;
    uint8_t *text = bytes_of(strtok(NULL, " "), &text_len);
    size_t n = next_size(), b = next_size(), f = next_size(), d = next_size();
    int32_t *notes = cells(n, 4), *bars = cells(b, 4), *figure = cells(f, 4);
    PaeDiagnostic *found = cells(d, sizeof *found);
    PaeReading r = pae_read(text, text_len, notes, n, bars, b, figure, f, found, d);
    size_t note_words = r.notes * (size_t)PAE_NOTE_WORDS, bar_words = r.bars * (size_t)PAE_BAR_WORDS;
    size_t found_words = r.diagnostics * DIAGNOSTIC_WORDS;
    size_t over = left_over(notes, note_words, n) + left_over(bars, bar_words, b) + left_over(figure, 0, f)
                  + left_over((int32_t *)found, found_words, d * DIAGNOSTIC_WORDS);
    printf("%u %u %u %u %u %zu", r.number, r.place, r.notes, r.bars, r.diagnostics, over);
    print_words(notes, note_words);
    print_words(bars, bar_words);
    print_words((int32_t *)found, found_words);
    print_round(notes, note_words, bars, bar_words);
    free(text);
    free(notes);
    free(bars);
    free(figure);
    free(found);
}

static void answer_card(void)
{
    size_t card_len;
    uint8_t *card = bytes_of(strtok(NULL, " "), &card_len);
    size_t n = next_size(), b = next_size();
    int32_t *notes = cells(n, 4), *bars = cells(b, 4);
    PaeCardRead r = pae_read_card(card, card_len, notes, n, bars, b);
    size_t note_words = r.notes * (size_t)PAE_NOTE_WORDS, bar_words = r.bars * (size_t)PAE_BAR_WORDS;
    size_t over = left_over(notes, note_words, n) + left_over(bars, bar_words, b);
    printf("%u 0 %u %u 0 %zu", r.number, r.notes, r.bars, over);
    print_words(notes, note_words);
    print_words(bars, bar_words);
    print_words(NULL, 0);
    print_round(notes, note_words, bars, bar_words);
    free(card);
    free(notes);
    free(bars);
}

static void answer_write(void)
{
    enum { RECORDS = 100 };
    static int32_t notes[RECORDS * PAE_NOTE_WORDS], bars[RECORDS * PAE_BAR_WORDS], figure[RECORDS * PAE_NOTE_WORDS];
    static PaeDiagnostic found[PAE_DIAGNOSTIC_CELLS];
    size_t text_len;
    uint8_t *text = bytes_of(strtok(NULL, " "), &text_len);
    PaeReading r = pae_read(text, text_len, notes, sizeof notes / 4, bars, sizeof bars / 4, figure, sizeof figure / 4,
                            found, PAE_DIAGNOSTIC_CELLS);
    size_t n = next_size(), b = next_size(), room = next_size();
    n = n == (size_t)-1 ? r.notes * (size_t)PAE_NOTE_WORDS : n;
    b = b == (size_t)-1 ? r.bars * (size_t)PAE_BAR_WORDS : b;
    for (size_t changes = next_size(); changes > 0; changes--) {
        int32_t *words = *strtok(NULL, " ") == 'n' ? notes : bars;
        size_t word = next_size();
        words[word] = (int32_t)next_size();
    }
    uint8_t *card = cells(room, 1);
    PaeCardWritten w = pae_write_card(notes, n, bars, b, card, room);
    size_t over = 0;
    for (size_t i = w.length; i < room; i++)
        over += card[i] != 0;
    printf("%u 0 0 0 0 %zu|||", w.number, over + r.number);
    print_card(card, w.length);
    printf("|1");
    free(text);
    free(card);
}

int main(void)
{
    static char line[1 << 20];
    while (fgets(line, sizeof line, stdin)) {
        line[strcspn(line, "\n")] = 0;
        const char *question = strtok(line, " ");
        if (!strcmp(question, "read"))
            answer_read();
        else if (!strcmp(question, "card"))
            answer_card();
        else if (!strcmp(question, "write"))
            answer_write();
        else
            printf("%u", pae_version());
        printf("\n");
    }
    return 0;
}
