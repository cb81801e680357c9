/* The lines of a script in words, in one place: explain.c tells them and helps with them, record.c writes them at a mark. */
#ifndef SCRIPT_WORDS_H
#define SCRIPT_WORDS_H

#include <stddef.h>

struct line_words {
    char letter;
    const char *fields;   /* a number for each, and any count of them for a last one that ends with .. */
    const char *name;     /* short, for a picture */
    const char *sentence; /* what happens */
};

static const struct line_words line_words[] = {
    {'S', "IDENTITY CHANNEL..", "set up", "the station is set up, a slot for each channel: the first line, and only once"},
    {'Q', "TIME SYMBOL..", "a sequence", "a sequence is heard on channel 70"},
    {'W', "TIME SLOT SYMBOL..", "a sequence", "a sequence is heard on the slot's working channel"},
    {'U', "TIME SLOT", "carrier up", "the ship's carrier comes"},
    {'D', "TIME SLOT", "carrier down", "the ship's carrier goes"},
    {'P', "TIME SLOT", "dialling ended", "dialling has ended"},
    {'O', "TIME SLOT", "off-hook", "the handset ashore is lifted (off-hook)"},
    {'H', "TIME SLOT", "on-hook", "the handset ashore is put down (on-hook)"},
    {'C', "TIME SHIP MODE DIGIT..", "call from shore",
        "somebody ashore calls a ship, in mode 100 (simplex) or 101 (duplex), from this number"},
    {'M', "TIME SLOT", "operator takes", "the operator takes the slot"},
    {'F', "TIME SLOT", "operator gives back", "the operator gives the slot back"},
    {'T', "TIME", "tick", "a tick of the host's clock"},
};

/* NULL where no line begins so. */
static inline const struct line_words *words_of_line(char letter) {
    for (size_t i = 0; i < sizeof line_words / sizeof line_words[0]; i++)
        if (line_words[i].letter == letter)
            return &line_words[i];
    return NULL;
}

#endif
