/* A number of frondicare.h in words, for a console or a log. C beside the library: nothing more is to be linked. The
 * texts are those of docs/RULES.md, "Numbers given back"; the commands use them too. */
#ifndef FRONDICARE_WORDS_H
#define FRONDICARE_WORDS_H

#include <stdint.h>

static inline const char *frondicare_in_words(uint32_t number)
{
    switch (number) {
    case 0: return "no refusal";
    case 1: return "the sector size is not 256, 512, 1024, 2048 or 4096";
    case 2: return "the number of an image's sectors is not 1 to 64";
    case 3: return "an offset is no multiple of the sector size, or an area passes the end of the flash";
    case 4: return "two of BOOT, UPDATE and SWAP overlap";
    case 5: return "fewer than 24 bytes of input, or more than 65,536 of flash";
    case 10: return "shorter than a header's 256 bytes, or a buffer of another length";
    case 11: return "the image mark is wrong";
    case 12: return "the size is 0 or too large";
    case 13: return "a tag passes the end of the header";
    case 14: return "a mandatory tag is missing";
    case 15: return "a mandatory tag is repeated";
    case 16: return "a mandatory tag has a wrong length";
    case 17: return "the digest differs";
    case 18: return "the signature checker says no";
    case 19: return "the version is not greater";
    case 20: return "the flags are ill-formed";
    case 21: return "the image in BOOT is on trial";
    case 22: return "a swap is under way";
    case 23: return "the image in BOOT is neither on trial nor confirmed";
    case 24: return "the step is not accepted";
    case 25: return "there is no such tag";
    case 26: return "the custom tags have more than 82 bytes";
    case 27: return "the custom tags are ill-formed";
    case 28: return "a counter of steps has no room for 4096 more";
    case 29: return "more than 4096 steps are asked for";
    case 30: return "the digest doesn't cover version, timestamp or firmware type";
    case 31: return "a lookup starts below 8 or above 256";
    default: return "no such number";
    }
}

#endif
