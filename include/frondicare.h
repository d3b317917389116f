/* Frondicare's loader, callable from C: an update is swapped in, and back where it isn't confirmed, and power may be
 * lost at any moment. The flash has three areas: BOOT, which is started; UPDATE, with the image to come or to return
 * to; and SWAP, a sector to exchange them by. Link libfrondicare.a (tools/library makes it), today for
 * x86-64 only. frondicare_geometry.h has a flash's six numbers as a struct, and each entry that takes them as NAME_on;
 * frondicare_words.h has numbers in words; examples/valve/ is a whole loader.
 *
 * At power-up, where a driver writes the flash: ask for the next step and carry it out, until there is none.
 *
 *     #include "frondicare_geometry.h"
 *
 *     static const frondicare_geometry board = { FLASH_SIZE, SECTOR_SIZE, SECTOR_COUNT, BOOT, UPDATE, SWAP };
 *
 *     void carry_out(frondicare_answer a)
 *     {
 *         static const uint8_t closing[] = FRONDICARE_CLOSING_BYTES;
 *         const uint8_t value = (uint8_t)a.value;
 *         switch ((enum frondicare_op)a.op) {
 *         case FRONDICARE_ERASE: flash_erase(a.at); break;
 *         case FRONDICARE_COPY: flash_copy(a.at, a.to); break;
 *         case FRONDICARE_BYTE: flash_write(a.at, &value, 1); break;
 *         case FRONDICARE_MARK: flash_write(a.at, closing, sizeof closing); break;
 *         }
 *     }
 *
 *     bool power_up_by_steps(void)
 *     {
 *         uint32_t left = frondicare_most_steps(board.sector_count);
 *         frondicare_answer a;
 *         do {
 *             a = frondicare_next_step_on(flash, &board, is_signed(board.boot), is_signed(board.update));
 *             if (a.kind == FRONDICARE_STEP || a.kind == FRONDICARE_LAST_STEP)
 *                 carry_out(a);
 *         } while (a.kind == FRONDICARE_STEP && left-- > 0);
 *         return a.kind == FRONDICARE_BOOT || a.kind == FRONDICARE_LAST_STEP;
 *     }
 *
 * Where the flash is memory, a run does all steps in one call. But it goes by the checker's answers from its start, and
 * after a cut in mid-swap there may be no whole slot to check: so that swap is finished first, a step at a time, and no
 * answer is looked at. (Without that loop a good update that was cut may be undone, or no image be started.)
 *
 *     bool power_up_by_run(void)
 *     {
 *         frondicare_step_counts counts = { 0, 0, 0, 0 };
 *         uint32_t left = frondicare_most_steps(board.sector_count);
 *         frondicare_answer a;
 *         for (; left > 0 && frondicare_in_mid_swap_on(flash, &board); left--)
 *             frondicare_run_on(flash, &board, false, false, 1, &counts);
 *         a = frondicare_run_on(flash, &board, is_signed(board.boot), is_signed(board.update), left, &counts);
 *         return a.kind == FRONDICARE_BOOT;
 *     }
 *
 * True: start the image in BOOT, and don't ask again before the next power-up: after an update it is on trial, and the
 * loader would begin the return. False: none can be started, and a.number says why; or a.kind is a step still, and the
 * flash doesn't take what is written. The board brings flash, where that is read; flash_erase, flash_copy, flash_write;
 * and is_signed, what its signature checker says of the digest in the header at an offset. Check its six numbers once:
 * frondicare_check_geometry_on(&board) is 0.
 *
 * To update: ask frondicare_trigger, and carry nothing out yet. Where it refuses, leave UPDATE alone, since it may hold
 * the image to return to. Otherwise erase UPDATE, its trailer first, and write the image there with the flash's own
 * driver. Verify it where it lies (frondicare_verify); if it passes, ask frondicare_trigger and carry out its step,
 * until it answers FRONDICARE_FINISHED. The next power-up swaps the image in, if its version is greater than BOOT's.
 * (examples/valve/requests.c does this.) To confirm: the image on trial asks frondicare_confirm in the same way. If it
 * doesn't, the next power-up returns to the image before it, where that one passes; it is on trial then too, and has to
 * confirm itself to stay.
 *
 * The rules:
 * - A call: every entry is proved against its contract in crates/frondicare/src. It ends, reads and writes only what it
 *   was lent, allocates and keeps nothing, and answers numbers of docs/RULES.md ("Numbers given back"), 0 for none. A
 *   refusal writes nothing; only a run may refuse after it has done steps, and these stay done.
 * - The caller: a pointer and its length describe memory that can be read; a flash is read as memory, also where a
 *   driver writes it. The pointer may be null where that length is 0, and no other may. A hint and a digest are 32
 *   bytes, a signature is 64. What is taken without const can be written too, and no other argument reaches it. Nobody
 *   else writes any of it during a call. Arguments that are only read may overlap. A bool is true or false. Every
 *   number is accepted.
 * - The flash: what reads as all FF is erased; a byte can be written again, to clear more of its bits (one with flags
 *   is, up to six times). Where power is lost, a byte or a mark is written or not begun; an erase or a copy changes
 *   nothing outside its sector; and a cut erase never leaves 42 4F 4F 54 at a slot's end.
 * - The signature checker: of the same image it says always the same. boot_signed and update_signed are what it says of
 *   the slots as they are; but in mid-swap of the slots before that swap, and no call looks at them before it is over.
 *   So a caller of frondicare_next_step checks both slots before each call; where that is slow, only if it is not
 *   mid-swap (frondicare_in_mid_swap), since there false will do. A run is told once, and exchanges the two itself when
 *   a step makes the last flag 0.
 * - The machine, by the System V ABI: the stack pointer is a multiple of 16 at a call, an interrupt leaves the 128
 *   bytes below it alone, SSE2 registers can be used. A call takes at most 1,600 bytes of stack (a run; the others are
 *   in bench/RESULTS.md), beside memset's own. The code has 24 KB at most, no data that is written, and calls memset
 *   and nothing else. */
#ifndef FRONDICARE_H
#define FRONDICARE_H

#include <stdbool.h>
#include <stddef.h>
#include <stdint.h>

/* What changed in which version: CHANGELOG.md. The number is for #if: 1.2.3 is 10203. */
#define FRONDICARE_VERSION "0.6.0"
#define FRONDICARE_VERSION_NUMBER 600

#define FRONDICARE_HEADER_SIZE 256
/* Where a header's first tag may start: before it are the mark and the firmware's size. */
#define FRONDICARE_FIRST_TAG 8
/* A slot's last four bytes, where its trailer is sound: to initialize an array of bytes. */
#define FRONDICARE_CLOSING_BYTES { 0x42, 0x4f, 0x4f, 0x54 }

#ifdef __cplusplus
extern "C" {
#endif

/* Fields that hold one of these are uint32_t, since an enum's size is the compiler's choice. A cast makes -Wswitch warn
 * of a case left out: switch ((enum frondicare_op)a.op). */

/* The kinds of an answer. */
enum frondicare_kind {
    FRONDICARE_STEP = 0,
    FRONDICARE_LAST_STEP = 1, /* a step, and the boot follows at once */
    FRONDICARE_BOOT = 2,
    FRONDICARE_REFUSED = 3,
    FRONDICARE_FINISHED = 4 /* of trigger and confirm: nothing is left to be done */
};

/* The kinds of a step. */
enum frondicare_op {
    FRONDICARE_ERASE = 0, /* the sector that starts at `at` becomes all FF */
    FRONDICARE_COPY = 1,  /* the sector that starts at `at` is copied onto that at `to`, which in an answer is all FF */
    FRONDICARE_BYTE = 2,  /* value is written at `at` */
    FRONDICARE_MARK = 3   /* FRONDICARE_CLOSING_BYTES are written at `at` */
};

/* What to do next. Fields that a kind doesn't use are 0. An offset counts from the start of the flash. */
typedef struct {
    uint32_t kind;   /* enum frondicare_kind */
    uint32_t number; /* boot: why UPDATE was passed over, 0 for none; refused: why */
    uint32_t op;     /* step, last step: enum frondicare_op */
    uint32_t value;  /* byte: its value */
    size_t at;       /* erase, byte, mark: the offset; copy: from */
    size_t to;       /* copy: to */
} frondicare_answer;

/* A record of finished steps, one counter for each kind. */
typedef struct {
    uint32_t erases;
    uint32_t copies;
    uint32_t bytes;
    uint32_t marks;
} frondicare_step_counts;

/* The states that a slot is sound with. Any other byte counts as none of these. */
enum frondicare_state {
    FRONDICARE_STATE_NEW = 0xff,
    FRONDICARE_STATE_UPDATING = 0x70,  /* UPDATE: triggered; the swap is due or under way */
    FRONDICARE_STATE_SPENT = 0x30,     /* UPDATE: its swap is over */
    FRONDICARE_STATE_ON_TRIAL = 0x10,  /* BOOT: not confirmed, it gives way at the next power-up if UPDATE passes */
    FRONDICARE_STATE_CONFIRMED = 0x00, /* BOOT: it stays */
    FRONDICARE_STATE_UNSOUND = 0x100   /* no byte: the slot is not sound, it doesn't end in the closing bytes */
};

/* A slot's state, enum frondicare_state or another byte. number is 0; or it says why not, and state is
 * FRONDICARE_STATE_UNSOUND. */
typedef struct {
    uint32_t number;
    uint32_t state;
} frondicare_slot_state;

/* An image's version. number is 0; or it says why not, and version is 0. */
typedef struct {
    uint32_t number;
    uint32_t version;
} frondicare_version;

/* Where a tag's content lies in its header. number is 0; or it says why not, and at and len are 0. */
typedef struct {
    uint32_t number;
    size_t at;
    size_t len;
} frondicare_tag;

/* A tag of a header: its type, where its content lies, and where the next lookup goes on. number is 0; or it says why
 * not, and all else is 0. */
typedef struct {
    uint32_t number;
    uint16_t type;
    size_t at;
    size_t len;
    size_t next;
} frondicare_listed_tag;

/* The types of tags that a header has. */
enum frondicare_tag_type {
    FRONDICARE_TAG_VERSION = 0x0001,
    FRONDICARE_TAG_TIMESTAMP = 0x0002,
    FRONDICARE_TAG_DIGEST = 0x0003,
    FRONDICARE_TAG_KEY_HINT = 0x0010,
    FRONDICARE_TAG_SIGNATURE = 0x0020,
    FRONDICARE_TAG_FIRMWARE_TYPE = 0x0030
};

/* Fields of a header beside the firmware's size. */
typedef struct {
    uint32_t version;
    uint64_t timestamp;
    uint16_t firmware_type;
} frondicare_fields;

/* The numbers of refusals and reasons; each entry below says when, frondicare_words.h has them in words. */
enum frondicare_number {
    FRONDICARE_OK = 0,
    FRONDICARE_ERR_SECTOR_SIZE = 1,
    FRONDICARE_ERR_SECTOR_COUNT = 2,
    FRONDICARE_ERR_PLACE = 3,
    FRONDICARE_ERR_OVERLAP = 4,
    FRONDICARE_ERR_SIMULATOR_INPUT = 5, /* no entry answers it */
    FRONDICARE_ERR_HEADER_LENGTH = 10,
    FRONDICARE_ERR_IMAGE_MARK = 11,
    FRONDICARE_ERR_SIZE = 12,
    FRONDICARE_ERR_TAG_PASSES_END = 13,
    FRONDICARE_ERR_TAG_MISSING = 14,
    FRONDICARE_ERR_TAG_REPEATED = 15,
    FRONDICARE_ERR_TAG_LENGTH = 16,
    FRONDICARE_ERR_DIGEST = 17,
    FRONDICARE_ERR_SIGNATURE = 18,
    FRONDICARE_ERR_VERSION = 19,
    FRONDICARE_ERR_FLAGS = 20,
    FRONDICARE_ERR_ON_TRIAL = 21,
    FRONDICARE_ERR_SWAP_BEGUN = 22,
    FRONDICARE_ERR_NOTHING_ON_TRIAL = 23,
    FRONDICARE_ERR_STEP = 24,
    FRONDICARE_ERR_NO_SUCH_TAG = 25,
    FRONDICARE_ERR_CUSTOM_LENGTH = 26,
    FRONDICARE_ERR_CUSTOM_TAGS = 27,
    FRONDICARE_ERR_COUNTER = 28,
    FRONDICARE_ERR_MOST_STEPS = 29,
    FRONDICARE_ERR_UNCOVERED = 30,
    FRONDICARE_ERR_START = 31
};

/* ---- The loader. The slots, BOOT and UPDATE, are sector_count + 1 sectors each, the last of them the trailer; SWAP is
 * one sector; boot, update and swap are their offsets. A slot is sound with a state where it ends in that byte and
 * 42 4F 4F 54. UPDATE's flags, half a byte for each sector, lie before its state, two to a byte and downward from it,
 * the even sector's in the low half. Bytes and flags are hexadecimal. */

/* Whether the three areas fit a flash of flash_len bytes. Areas may touch. 1: sector_size is not 256, 512, 1024, 2048
 * or 4096; 2: sector_count is not 1 to 64; 3: an offset is not a multiple of sector_size, or an area passes the end;
 * 4: areas overlap. The first that applies is answered. */
uint32_t frondicare_check_geometry(size_t flash_len, size_t sector_size, size_t sector_count,
                                   size_t boot, size_t update, size_t swap);

/* The next step of an update or of a return, or a boot, or a refusal. The flash is only read.
 * Boot: 0: no update or return was considered; 11 to 18, 30: the image in UPDATE doesn't pass, as
 * frondicare_verify says it; 19: its version is not greater than that of the image in BOOT (which has
 * none where its header fails 11 to 16 or 30, and then any version is taken).
 * Refused: 1 to 4 as above; 20: UPDATE's flags are ill-formed; 11 to 18, 30: nothing is to be swapped,
 * and the image in BOOT doesn't pass. */
frondicare_answer frondicare_next_step(const uint8_t *flash, size_t flash_len,
                                       size_t sector_size, size_t sector_count,
                                       size_t boot, size_t update, size_t swap,
                                       bool boot_signed, bool update_signed);

/* Carries out one step on the flash, where that is memory. op is the step's kind, with at, to and value as the answer
 * has them. Sectors are those of the three areas; a byte, of at most 255, lies within a trailer, and a mark at a slot's
 * last four bytes. All but an erase can only clear bits: a byte becomes what it was AND what is written. Arguments that
 * an op doesn't use are ignored. An answer without a step has zeros here, which may be an erase: look at its kind
 * first, as frondicare_carry_out_on does. 1 to 4 as above; 24: the step is not accepted. */
uint32_t frondicare_apply_step(uint8_t *flash, size_t flash_len,
                               size_t sector_size, size_t sector_count,
                               size_t boot, size_t update, size_t swap,
                               uint32_t op, size_t at, size_t to, uint32_t value);

/* Decides and carries out up to most_steps steps, 0 to 4096, and adds each to the record as it is done. It
 * ends at a boot, which follows a last step at once with no reason; at a refusal; or with the steps used
 * up, and then answers the step that is due, which is not done. boot_signed and update_signed are those
 * at the start. Boot and refused as for frondicare_next_step. Refused before the first step: 1 to 4 as
 * above; 29: most_steps is above 4096; 28: a counter is above 4,294,963,199. */
frondicare_answer frondicare_run(uint8_t *flash, size_t flash_len,
                                 size_t sector_size, size_t sector_count,
                                 size_t boot, size_t update, size_t swap,
                                 bool boot_signed, bool update_signed,
                                 uint32_t most_steps, frondicare_step_counts *counts);

/* Whether a swap is under way: UPDATE is sound with 70, and its flags, well-formed or not, are neither all F nor all 0.
 * frondicare_next_step answers a step then, or refuses ill-formed flags, whatever boot_signed and update_signed are.
 * False where the geometry is refused. */
bool frondicare_in_mid_swap(const uint8_t *flash, size_t flash_len,
                            size_t sector_size, size_t sector_count,
                            size_t boot, size_t update, size_t swap);

/* No run does more steps, and so no power-up, whatever the flash holds: 2 (9 sector_count + 4). With so many a run
 * never answers a step that is due. 0 where sector_count is not 1 to 64. */
uint32_t frondicare_most_steps(size_t sector_count);

/* The next step that triggers an update to the image in UPDATE, at most three in all, or finished. The
 * image is not verified here. Refused: 1 to 4 as above; 22: UPDATE is sound with 70 and some flag isn't
 * F; 21: BOOT is sound with 10. */
frondicare_answer frondicare_trigger(const uint8_t *flash, size_t flash_len,
                                     size_t sector_size, size_t sector_count,
                                     size_t boot, size_t update, size_t swap);

/* The step that confirms the image in BOOT, which is on trial, or finished where it is confirmed.
 * Refused: 1 to 4 and 22 as above; 23: BOOT is neither on trial nor confirmed. */
frondicare_answer frondicare_confirm(const uint8_t *flash, size_t flash_len,
                                     size_t sector_size, size_t sector_count,
                                     size_t boot, size_t update, size_t swap);

/* The state that BOOT is sound with, and UPDATE. 1 to 4 as above. */
frondicare_slot_state frondicare_boot_state(const uint8_t *flash, size_t flash_len,
                                            size_t sector_size, size_t sector_count,
                                            size_t boot, size_t update, size_t swap);
frondicare_slot_state frondicare_update_state(const uint8_t *flash, size_t flash_len,
                                              size_t sector_size, size_t sector_count,
                                              size_t boot, size_t update, size_t swap);

/* Adds one finished step to a record, where a driver carries steps out. op is the step's. 24: op is above 3; 28: a
 * counter is above 4,294,963,199. */
uint32_t frondicare_add_step(frondicare_step_counts *counts, uint32_t op);

/* ---- Images: a header of 256 bytes, then the firmware. */

/* The verdict on an image; bytes after its firmware don't count.
 * signature_ok is what the caller's signature checker said of the digest in the header. 0: passes.
 * 10: shorter than 256; 11: mark wrong; 12: size 0 or past the image; 13: a tag passes 256; 14, 15,
 * 16: a mandatory tag is missing, repeated, of wrong length; 30: version, timestamp or firmware type does
 * not start before the digest tag, so that digest and signature don't cover it; 17: digest differs;
 * 18: signature_ok is false. The first that applies is answered, in this order. */
uint32_t frondicare_verify(const uint8_t *image, size_t image_len, bool signature_ok);

/* The version in an image's header; the firmware is not looked at, but image_len must reach its end. 10 to 16 and 30
 * as above. */
frondicare_version frondicare_version_of(const uint8_t *image, size_t image_len);

/* The first tag of a type in a header; of a longer slice, such as an image, the first 256 bytes are
 * read. A tag of length 0 is found too. The image is not verified. Where it passes, digest and signature cover
 * version, timestamp and firmware type, but no tag behind the digest's: one may have been added there.
 * 10: shorter than 256; 13: a tag passes 256 before a match is met; 25: absent. */
frondicare_tag frondicare_find_tag(const uint8_t *header, size_t header_len, uint16_t type);

/* The same from a place of the header on, and of any type where any is true; type is ignored then. With it all tags are
 * listed in their order, custom ones and repeated ones too, at most 62; show is the caller's. True: the list is whole.
 *
 *     bool list_tags(const uint8_t *header, size_t header_len)
 *     {
 *         frondicare_listed_tag tag = frondicare_next_tag(header, header_len, FRONDICARE_FIRST_TAG, true, 0);
 *         for (; tag.number == FRONDICARE_OK; tag = frondicare_next_tag(header, header_len, tag.next, true, 0))
 *             show(tag.type, header + tag.at, tag.len);
 *         return tag.number == FRONDICARE_ERR_NO_SUCH_TAG;
 *     }
 *
 * from is FRONDICARE_FIRST_TAG or an answer's next. Any place from 8 to 256 is taken: in the middle of a tag, what
 * stands there is read as if a tag started. 10: shorter than 256; 31: from is below 8 or above 256; 13: a tag passes
 * 256 before a match is met; 25: absent, as always from 256. The first that applies is answered, in this order. */
frondicare_listed_tag frondicare_next_tag(const uint8_t *header, size_t header_len, size_t from,
                                          bool any, uint16_t type);

/* ---- To make an image: frondicare_digest_to_sign, sign the digest, then frondicare_write_header with the same
 * arguments; the image is the 256 bytes of the buffer, then the firmware. */

/* The digest to be signed of an image that is yet to be written. custom is a run of custom tags, at
 * most 82 bytes: type, length, content of each, with no padding; custom_len 0 for none.
 * 12: firmware empty or longer than 4,294,967,039; 26: custom run longer than 82 bytes; 27: it is not
 * whole tags, or a type in it is 0, has FF as its low byte, or is one of enum frondicare_tag_type. */
uint32_t frondicare_digest_to_sign(frondicare_fields fields,
                                   const uint8_t *firmware, size_t firmware_len,
                                   const uint8_t *custom, size_t custom_len,
                                   const uint8_t hint[32], uint8_t digest[32]);

/* Writes the header of the same image, with the signature of that digest. The digest is computed
 * again, and the signature is not checked. 10: buffer_len is not 256; 12, 26, 27 as above. */
uint32_t frondicare_write_header(uint8_t *buffer, size_t buffer_len, frondicare_fields fields,
                                 const uint8_t *firmware, size_t firmware_len,
                                 const uint8_t *custom, size_t custom_len,
                                 const uint8_t hint[32], const uint8_t signature[64]);

/* SHA-256 (FIPS 180-4) of a message. 12: longer than 4,294,967,295 bytes. */
uint32_t frondicare_digest(const uint8_t *message, size_t message_len, uint8_t digest[32]);

/* The same of a message in two pieces, where they lie. */
uint32_t frondicare_digest_of_two(const uint8_t *first, size_t first_len,
                                  const uint8_t *second, size_t second_len,
                                  uint8_t digest[32]);

#ifdef __cplusplus
}
#endif

#endif
