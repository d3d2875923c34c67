/* pad.c: PAD bytes of code that are linked before a library. The emulator is slow where a hot loop lies across a page's border; another PAD shifts the
   loops to other places, so that what is slow only there can be told from what is slow. */
#ifndef PAD
#define PAD 1024
#endif
#define TEXT_OF(x) #x
#define TEXT(x) TEXT_OF(x)

void pad(void) {
    __asm__(".skip " TEXT(PAD) ", 0x90");
}
