/* Reads one incipit, the first argument or standard input, and prints its notes, bars and
 * diagnostics, or why it is refused. Writes the card of what is accepted, reads it back and tells
 * whether that gives the same. Exit status: 0 accepted, 1 refused, 2 no memory or no input. */
#include "pae.h"

#include <stdio.h>
#include <stdlib.h>
#include <string.h>

enum { SHORT_CARD = 64, BYTES_OF_A_LINE = 16 };

typedef struct Buffers {
    int32_t *notes, *bars, *figure;
    size_t records;
} Buffers;

static PaeDiagnostic diagnostics[PAE_DIAGNOSTIC_CELLS];

static void out_of_memory(void) {
    fputs("no memory\n", stderr);
    exit(2);
}

/* Standard input to its end; a byte beyond PAE_MAX_TEXT is enough to be refused. */
static uint8_t *standard_input(size_t *length) {
    uint8_t *text = malloc(PAE_MAX_TEXT + 1);
    if (text == NULL)
        out_of_memory();
    *length = fread(text, 1, PAE_MAX_TEXT + 1, stdin);
    if (ferror(stdin)) {
        fputs("standard input can't be read\n", stderr);
        exit(2);
    }
    return text;
}

static Buffers allocate(size_t records) {
    Buffers made = {malloc(records * PAE_NOTE_WORDS * sizeof(int32_t)),
                    malloc(records * PAE_BAR_WORDS * sizeof(int32_t)),
                    malloc(records * PAE_NOTE_WORDS * sizeof(int32_t)), records};
    if (made.notes == NULL || made.bars == NULL || made.figure == NULL)
        out_of_memory();
    return made;
}

static void release(Buffers made) {
    free(made.notes);
    free(made.bars);
    free(made.figure);
}

static PaeReading read_into(const uint8_t *text, size_t length, Buffers buffers) {
    return pae_read(text, length, buffers.notes, buffers.records * PAE_NOTE_WORDS, buffers.bars,
                    buffers.records * PAE_BAR_WORDS, buffers.figure, buffers.records * PAE_NOTE_WORDS,
                    diagnostics, PAE_DIAGNOSTIC_CELLS);
}

static int wants_more(uint32_t number) {
    return number == PAE_REFUSED_NOTE_RECORDS || number == PAE_REFUSED_FIGURE_RECORDS ||
           number == PAE_REFUSED_BAR_RECORDS;
}

/* With a record for each byte at first; repeats and rests of whole bars may want more. */
static PaeReading read_text(const uint8_t *text, size_t length, Buffers *buffers) {
    size_t records = length < PAE_MAX_NOTES ? length + 1 : PAE_MAX_NOTES;
    for (;;) {
        PaeReading reading;
        *buffers = allocate(records);
        reading = read_into(text, length, *buffers);
        if (!wants_more(reading.number) || records == PAE_MAX_NOTES)
            return reading;
        release(*buffers);
        records = records < PAE_MAX_NOTES / 2 ? 2 * records : PAE_MAX_NOTES;
    }
}

static const char *refusal_text(uint32_t number) {
    switch (number) {
    case PAE_REFUSED_TOO_LARGE: return "the text is too long";
    case PAE_REFUSED_DIAGNOSTIC_CELLS: return "too few diagnostic cells";
    case PAE_REFUSED_MALFORMED_UTF8: return "the text is malformed UTF-8";
    case PAE_REFUSED_BLANK: return "the text is blank";
    case PAE_REFUSED_NO_DATA: return "the text has fields, but none is @data:";
    case PAE_REFUSED_TOO_MANY_NOTES: return "too many notes";
    case PAE_REFUSED_NOTE_RECORDS: return "too few note records";
    case PAE_REFUSED_TOO_MANY_PITCHES: return "too many pitches in a chord";
    case PAE_REFUSED_TOO_MANY_MARKS: return "too many marks on a note";
    case PAE_REFUSED_FIGURE_RECORDS: return "too few figure records";
    case PAE_REFUSED_BAR_RECORDS: return "too few bar records";
    case PAE_REFUSED_NO_NOTES: return "the data hold no note and no rest";
    default: return "a refusal of another version";
    }
}

static void print_refusal(PaeReading reading) {
    printf("refused %u", (unsigned)reading.number);
    if (reading.place != 0)
        printf(" at data place %u", (unsigned)reading.place);
    printf(": %s\n", refusal_text(reading.number));
}

static void print_pitches(const int32_t *note) {
    static const char *const signs[] = {"bb", "b", "", "#", "##"};
    int32_t i;
    for (i = 0; i < note[PAE_NOTE_PITCH_COUNT]; i++) {
        const int32_t *pitch = note + PAE_NOTE_PITCHES + i * PAE_PITCH_WORDS;
        printf(" %c%s%d", "CDEFGAB"[pitch[PAE_PITCH_STEP]], signs[pitch[PAE_PITCH_ALTER] + 2],
               (int)pitch[PAE_PITCH_OCTAVE]);
    }
}

static void print_marks(const int32_t *note) {
    int32_t i;
    for (i = 0; i < note[PAE_NOTE_MARK_COUNT]; i++)
        fputs((note[PAE_NOTE_MARKS] >> i & 1) == 1 ? ", trill" : ", fermata", stdout);
}

static void print_note(const int32_t *note) {
    static const char *const kinds[] = {"note", "rest", "grace", "slashed grace", "whole-bar rest"};
    static const char *const durations[] = {"longa", "breve", "whole", "half", "quarter",
                                            "eighth", "16th", "32nd", "64th", "128th"};
    static const char *const ties[] = {"", ", tie start", ", tie end", ", tie end and start"};
    static const char *const beams[] = {"", ", beam begin", ", beam", ", beam end"};
    printf("  %s", kinds[note[PAE_NOTE_KIND]]);
    print_pitches(note);
    if (note[PAE_NOTE_KIND] != PAE_KIND_WHOLE_BAR_REST)
        printf(", %s%.*s", durations[note[PAE_NOTE_DURATION]], (int)note[PAE_NOTE_DOTS], "...");
    fputs(ties[note[PAE_NOTE_TIES]], stdout);
    fputs(beams[note[PAE_NOTE_BEAM]], stdout);
    if (note[PAE_NOTE_TUPLET_ACTUAL] != 0)
        printf(", %d to %d", (int)note[PAE_NOTE_TUPLET_ACTUAL], (int)note[PAE_NOTE_TUPLET_NORMAL]);
    print_marks(note);
    printf(" (at %d)\n", (int)note[PAE_NOTE_PLACE]);
}

static void print_bar(const int32_t *bar, unsigned number) {
    static const char *const clefs[] = {"",       ", treble",        ", treble 8vb",
                                        ", bass", ", soprano",       ", mezzo-soprano",
                                        ", alto", ", tenor",         ", baritone"};
    static const char *const symbols[] = {"", " (common)", " (cut)"};
    static const char *const lines[] = {"", " double", " repeat start", " repeat end"};
    printf("bar %u%s", number, clefs[bar[PAE_BAR_CLEF]]);
    if (bar[PAE_BAR_KEY_SET] == 1)
        printf(", fifths %d", (int)bar[PAE_BAR_FIFTHS]);
    if (bar[PAE_BAR_NUMERATOR] != 0)
        printf(", %d/%d%s", (int)bar[PAE_BAR_NUMERATOR], (int)bar[PAE_BAR_DENOMINATOR],
               symbols[bar[PAE_BAR_SYMBOL]]);
    if (bar[PAE_BAR_LEFT] != PAE_BARLINE_NORMAL)
        printf(", left%s", lines[bar[PAE_BAR_LEFT]]);
    if (bar[PAE_BAR_RIGHT] != PAE_BARLINE_NORMAL)
        printf(", right%s", lines[bar[PAE_BAR_RIGHT]]);
    putchar('\n');
}

static void print_bars(PaeReading reading, Buffers buffers) {
    uint32_t i;
    for (i = 0; i < reading.bars; i++) {
        const int32_t *bar = buffers.bars + (size_t)i * PAE_BAR_WORDS;
        int32_t j;
        print_bar(bar, (unsigned)i + 1);
        for (j = 0; j < bar[PAE_BAR_NOTE_COUNT]; j++)
            print_note(buffers.notes + (size_t)(bar[PAE_BAR_FIRST_NOTE] + j) * PAE_NOTE_WORDS);
    }
}

static void print_diagnostic(PaeDiagnostic found, const uint8_t *text) {
    printf("d%d at %s %d: ", (int)found.number,
           found.place_kind == PAE_PLACE_DATA ? "data place" : "line", (int)found.place);
    if (found.value_kind == PAE_VALUE_TEXT)
        printf("%.*s\n", (int)(found.end - found.start), (const char *)text + found.start);
    else if (found.value_kind == PAE_VALUE_GROUP)
        puts("()");
    else
        printf("%d\n", (int)found.start);
}

static void print_bytes(const uint8_t *bytes, uint32_t count) {
    uint32_t i;
    for (i = 0; i < count; i++)
        printf("%s%02x%s", i % BYTES_OF_A_LINE == 0 ? "  " : " ", (unsigned)bytes[i],
               i % BYTES_OF_A_LINE == BYTES_OF_A_LINE - 1 || i + 1 == count ? "\n" : "");
}

/* Whether the card reads to these records. A bar has a note, so that bars are no more than notes. */
static int reads_back(const uint8_t *card, size_t length, PaeReading reading, Buffers buffers) {
    Buffers back = allocate(reading.notes);
    size_t note_words = reading.notes * (size_t)PAE_NOTE_WORDS;
    size_t bar_words = reading.bars * (size_t)PAE_BAR_WORDS;
    PaeCardRead got = pae_read_card(card, length, back.notes, note_words, back.bars, bar_words);
    int same = got.number == PAE_ACCEPTED && got.notes == reading.notes && got.bars == reading.bars &&
               memcmp(back.notes, buffers.notes, note_words * sizeof(int32_t)) == 0 &&
               memcmp(back.bars, buffers.bars, bar_words * sizeof(int32_t)) == 0;
    release(back);
    return same;
}

static void print_card(PaeReading reading, Buffers buffers) {
    size_t size = PAE_CARD_BYTES(reading.notes, reading.bars);
    uint8_t *card = malloc(size);
    PaeCardWritten written;
    if (card == NULL)
        out_of_memory();
    written = pae_write_card(buffers.notes, reading.notes * (size_t)PAE_NOTE_WORDS, buffers.bars,
                             reading.bars * (size_t)PAE_BAR_WORDS, card, size);
    printf("card: %u bytes, read back %s\n", (unsigned)written.length,
           reads_back(card, written.length, reading, buffers) ? "the same" : "otherwise");
    if (written.length <= SHORT_CARD)
        print_bytes(card, written.length);
    free(card);
}

static int print_reading(const uint8_t *text, size_t length) {
    Buffers buffers;
    PaeReading reading = read_text(text, length, &buffers);
    uint32_t i;
    if (reading.number != PAE_ACCEPTED)
        print_refusal(reading);
    print_bars(reading, buffers);
    for (i = 0; i < reading.diagnostics; i++)
        print_diagnostic(diagnostics[i], text);
    if (reading.number == PAE_ACCEPTED)
        print_card(reading, buffers);
    release(buffers);
    return reading.number == PAE_ACCEPTED ? 0 : 1;
}

int main(int argc, char **argv) {
    uint8_t *text;
    size_t length;
    int status;
    if (argc > 1)
        return print_reading((const uint8_t *)argv[1], strlen(argv[1]));
    text = standard_input(&length);
    status = print_reading(text, length);
    free(text);
    return status;
}
