/* The three C functions that the library calls, for targets for which the toolchain doesn't have them, as it does for x86-64 Linux. It
 * includes no header and returns a pair as two words, so that any target compiles it. */
typedef __SIZE_TYPE__ word;
typedef struct tried {
    word is_there;
    word at;
} tried;

void *malloc(word);
void *realloc(void *, word);
void free(void *);

/* What a failed call points to: nothing is read or written there. */
static char nothing;

static tried told(void *at) { return (tried){at != 0, (word)(at ? at : &nothing)}; }

tried rattle_alloc(word bytes, word alignment) { return told(malloc(bytes ? bytes : alignment)); }

tried rattle_realloc(void *at, word kept, word bytes, word alignment) {
    (void)kept;
    return told(realloc(at, bytes ? bytes : alignment));
}

void rattle_dealloc(void *at) { free(at); }
