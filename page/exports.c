/* What the page calls of the module. Nothing here is proved: it hands on what the page hands in. */
#include "heap.h"

/* The proved call: crates/um_embed says what it gives. */
int um_page_serve(const byte *words, size words_size, const byte *text, size text_size, byte *answer, size room,
                  size *answer_size);

__attribute__((export_name("serve"))) int serve(const byte *words, size words_size, const byte *text, size text_size,
                                                byte *answer, size room, size *answer_size) {
    return um_page_serve(words, words_size, text, text_size, answer, room, answer_size) & 255;
}

/* Room for what the page hands in and for the answer; 0 where there is none. */
__attribute__((export_name("take"))) byte *take_room(size bytes) {
    struct tried tried = rattle_alloc(bytes, 16);
    return tried.ok ? tried.block : 0;
}

__attribute__((export_name("give"))) void give_room(byte *block) {
    rattle_dealloc(block);
}
