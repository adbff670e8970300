/* How much of the stack the calls take: each is made in a thread of its own, on a stack that is painted
 * before and looked at after. The first call also binds memset and memcpy, where that is done only then. */
#define _POSIX_C_SOURCE 200112L
#include "pae.h"

#include <pthread.h>
#include <stdio.h>
#include <stdlib.h>
#include <string.h>

enum { STACK = 1 << 18, ALIGNMENT = 4096, PAINT = 0xa5, RECORDS = 2048, LONG = 6000 };

/* What pae.h says of pae_read, and of the functions of cards. */
enum { READ_STACK = 28 * 1024, CARD_STACK = 1024 };

static int32_t notes[RECORDS * PAE_NOTE_WORDS], bars[RECORDS * PAE_BAR_WORDS];
static int32_t figure[RECORDS * PAE_NOTE_WORDS];
static PaeDiagnostic cells[PAE_DIAGNOSTIC_CELLS];
static uint8_t card[PAE_CARD_BYTES(RECORDS, RECORDS)];
static PaeReading reading;
static PaeCardWritten written;
static PaeCardRead back;
static const char *text;
static unsigned char *painted;
static uintptr_t top;

static void fail(const char *what) {
    fprintf(stderr, "stack.c: %s\n", what);
    exit(2);
}

static void *read_text(void *unused) {
    unsigned char here = PAINT;
    top = (uintptr_t)&here;
    reading = pae_read((const uint8_t *)text, strlen(text), notes, sizeof notes / sizeof *notes, bars,
                       sizeof bars / sizeof *bars, figure, sizeof figure / sizeof *figure, cells,
                       PAE_DIAGNOSTIC_CELLS);
    return unused;
}

static void *write_card(void *unused) {
    unsigned char here = PAINT;
    top = (uintptr_t)&here;
    written = pae_write_card(notes, reading.notes * (size_t)PAE_NOTE_WORDS, bars,
                             reading.bars * (size_t)PAE_BAR_WORDS, card, sizeof card);
    return unused;
}

static void *read_card(void *unused) {
    unsigned char here = PAINT;
    top = (uintptr_t)&here;
    back = pae_read_card(card, written.length, notes, sizeof notes / sizeof *notes, bars,
                         sizeof bars / sizeof *bars);
    return unused;
}

/* The bytes of the stack between the caller's and the lowest one that was written. */
static size_t taken(void *(*call)(void *)) {
    pthread_attr_t attributes;
    pthread_t thread;
    unsigned char *lowest = painted;
    memset(painted, PAINT, STACK);
    if (pthread_attr_init(&attributes) != 0 || pthread_attr_setstack(&attributes, painted, STACK) != 0 ||
        pthread_create(&thread, &attributes, call, NULL) != 0 || pthread_join(thread, NULL) != 0)
        fail("no thread");
    pthread_attr_destroy(&attributes);
    while (*lowest == PAINT)
        lowest++;
    return (size_t)(top - (uintptr_t)lowest);
}

static size_t greater(size_t a, size_t b) {
    return a > b ? a : b;
}

/* Every kind of token and field, wide blanks, refusals, and more diagnostics than the scratch for few. */
static const char *const texts[] = {
    "%G-2$xF@3/4 8.6 C^E{DE}/!FG!f(A-+;5)//",
    "@c/$bBE%F-4 ''xxC,bbD'nE t(F)g4GqAqqBCr//:D://",
    "\xe3\x80\x80@title:\xc2\xa0Gr\xc3\xbc\xc3\x9f" "e\xe2\x80\x83\n\xc2\x85@clef:F-4\n@keysig:x F C\n"
    "@timesig:12/8\nno field\n@data:\xc2\xa0" "C\xe2\x80\x83" "D%\xc3\xa9+\xc3\xbc/$xFQ@9/9@o t)(:;+f",
    "=1000/=12/i=0=1001",
    "!C!!ff!!ff!!ff!!ff!!ff!!ff!!ff!ff/i",
    "C^D^E^F^G^A^B^'Ctttttttt",
    "C^D^E^F^G^A^B^'C^D",
    "Cttttttttt",
    "C\xc3",
    "",
    "@c:C",
    "x"};

/* Many of one sign after a note: notes, bars or diagnostics. */
static const char *many(char sign) {
    static char line[LONG + 1];
    memset(line, sign, LONG);
    line[0] = 'C';
    return line;
}

/* Reads this text, and its card there and back. `most` holds the most that each took so far. */
static void measure(const char *line, size_t most[3]) {
    text = line;
    most[0] = greater(most[0], taken(read_text));
    if (reading.number != PAE_ACCEPTED)
        return;
    most[1] = greater(most[1], taken(write_card));
    most[2] = greater(most[2], taken(read_card));
    if (back.notes != reading.notes || back.bars != reading.bars)
        fail("a card doesn't come back");
}

int main(void) {
    static const char signs[] = "z)=-/D%";
    size_t first, most[3] = {0, 0, 0}, i;
    void *area;
    int holds;
    if (posix_memalign(&area, ALIGNMENT, STACK) != 0)
        fail("no memory");
    painted = (unsigned char *)area;
    text = texts[0];
    first = taken(read_text);
    for (i = 0; i < sizeof texts / sizeof *texts; i++)
        measure(texts[i], most);
    for (i = 0; signs[i] != '\0'; i++)
        measure(many(signs[i]), most);
    holds = first < PAE_STACK_BYTES && most[0] < READ_STACK && most[1] < CARD_STACK && most[2] < CARD_STACK;
    printf("stack: pae_read %u bytes, %u in its first call, pae_write_card %u, pae_read_card %u: %s\n",
           (unsigned)most[0], (unsigned)first, (unsigned)most[1], (unsigned)most[2],
           holds ? "as pae.h says" : "not as pae.h says");
    free(painted);
    return holds ? 0 : 1;
}
