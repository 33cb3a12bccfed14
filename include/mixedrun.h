/*
 * The mixed machine as a library: programs that mix 68K and PowerPC code, run over the caller's bytes. No file and no
 * stream is touched, and nothing is kept between calls.
 *
 * docs/machine.md says what the machine is, docs/files.md what files and images are. What a call ends with is proved
 * (docs/library.md); what follows here is owed by the caller, and nothing checks it:
 *
 * - Each pointer points to as many bytes, `longs` to as many longs, as the length behind it says. It is never NULL, also where that length is 0:
 *   pass the address of any byte then.
 * - A buffer that is written, and `told`, meet no other bytes of the same call. Slices that are only read may meet.
 * - No other thread writes these bytes during the call, or reads what is written. Several calls at once, each over its own
 *   bytes, are fine.
 * - malloc, realloc and free are one allocator, and align a block to each power of two up to 16 that divides its size. No
 *   call is made from a signal handler, or from the forked child of a process with threads. All that a call takes is freed
 *   when it returns.
 *
 * Link with libmixedrun-x86_64-linux.a alone.
 */
#ifndef MIXEDRUN_H
#define MIXEDRUN_H

#include <stddef.h>
#include <stdint.h>

#ifdef __cplusplus
extern "C" {
#endif

/* The version, and the first bytes of the images that it writes and reads. */
#define MIXEDRUN_VERSION "0.1.0"
#define MIXEDRUN_IMAGE "MIXIMG01"

/* The files of a program. MIXEDRUN_FORK_AND_CONTAINER takes the fork first and the container second. */
enum {
    MIXEDRUN_FLAT = 0,
    MIXEDRUN_FORK = 1,
    MIXEDRUN_CONTAINER = 2,
    MIXEDRUN_FORK_AND_CONTAINER = 3
};

/* The set of the main program: the usual one for its files, or this. */
enum { MIXEDRUN_USUAL = 0, MIXEDRUN_68K = 1, MIXEDRUN_PPC = 2 };

/* The status that a call answers. */
enum {
    MIXEDRUN_EXIT = 0,          /* the program ended with code 0 */
    MIXEDRUN_OTHER_CODE = 1,    /* or with another code, which the trace tells */
    MIXEDRUN_BAD_WORDS = 2,     /* a number is none of those that there are */
    MIXEDRUN_NOT_LOADED = 3,    /* a file, an image or a line is refused; the trace tells why */
    MIXEDRUN_OUTPUT_FULL = 6,   /* `out` was too small: it holds a beginning */
    MIXEDRUN_TRACE_FULL = 7,    /* `trace` was too small: it holds a beginning */
    MIXEDRUN_KEPT_FULL = 8,     /* `kept` was too small: it holds a beginning */
    MIXEDRUN_NO_MEMORY = 9,
    MIXEDRUN_FAULT = 10,        /* the program faulted; the trace tells where */
    MIXEDRUN_LIMIT = 11         /* all steps were done */
};

/*
 * How many bytes a call put to the front of each buffer. Behind them a buffer is as it was. And how many steps it did of a run,
 * also where the input or a buffer stopped it: an exit is a step that is done, and a fault is none. It is 0 where nothing was run.
 */
typedef struct mixedrun_told {
    size_t out;
    size_t trace;
    size_t kept;
    uint32_t steps;
} mixedrun_told;

/*
 * Runs a program from its files for at most `steps` steps, as the words `run` of the program mixedrun do, with the same
 * devices: a counter in slot 0 and a tape in slot 1. `kib` is the size of RAM, 128 to 16384. `second` is used with
 * MIXEDRUN_FORK_AND_CONTAINER alone. A file has at most 16 MiB.
 *
 * Where `kept` has room and all steps were done, the machine is kept there: an image, which has at most 17825792
 * bytes. With `steps` 0 that is the machine at its start.
 */
uint8_t mixedrun_run(uint32_t kind, uint32_t main_set, uint32_t kib, uint32_t steps,
                     const uint8_t *first, size_t first_length,
                     const uint8_t *second, size_t second_length,
                     const uint8_t *input, size_t input_length,
                     uint8_t *out, size_t out_room,
                     uint8_t *trace, size_t trace_room,
                     uint8_t *kept, size_t kept_room,
                     mixedrun_told *told);

/*
 * Runs a machine on whose image is given, as the words `continue` do. The devices begin anew. `kept` and `image` are two
 * buffers: for a run in pieces, take turns.
 */
uint8_t mixedrun_continue(uint32_t steps,
                          const uint8_t *image, size_t image_length,
                          const uint8_t *input, size_t input_length,
                          uint8_t *out, size_t out_room,
                          uint8_t *trace, size_t trace_room,
                          uint8_t *kept, size_t kept_room,
                          mixedrun_told *told);

/*
 * Runs a machine on from its image for at most `steps` steps, keeps the machine that it became in `kept`, however it stopped,
 * and tells how many steps are left: an exit is a step that is done, and a fault is none. The trace has the lines of calls,
 * returns and asks, and no end line: the traces of several such calls, one after the other, are those of one. The status is
 * MIXEDRUN_KEPT_FULL where the image had no room. The end line of an exit or a fault is what mixedrun_continue traces from the
 * image that was kept.
 */
uint8_t mixedrun_advance(uint32_t steps,
                         const uint8_t *image, size_t image_length,
                         const uint8_t *input, size_t input_length,
                         uint8_t *out, size_t out_room,
                         uint8_t *trace, size_t trace_room,
                         uint8_t *kept, size_t kept_room,
                         mixedrun_told *told, uint32_t *left);

/* What mixedrun_look read: the active set, 0 for 68K and 1 for PowerPC, and how many longs and bytes stand in the buffers. */
typedef struct mixedrun_seen {
    uint32_t set;
    size_t longs;
    size_t bytes;
} mixedrun_seen;

/*
 * Reads registers and memory of a machine from its image: in `longs` D0 to D7, A0 to A7, pc and the condition codes, or r0 to
 * r31, CR, LR, CTR, XER and pc; in `bytes` the memory from `address` on, where a live frame stands as it is kept. The status
 * is 0, MIXEDRUN_NOT_LOADED where the bytes are no image, or MIXEDRUN_NO_MEMORY.
 */
uint8_t mixedrun_look(const uint8_t *image, size_t image_length,
                      uint32_t address,
                      uint32_t *longs, size_t longs_room,
                      uint8_t *bytes, size_t bytes_room,
                      mixedrun_seen *seen);

/* Lists the instructions of a program from an address on, `count` at most, 1 to 4096, as `list` does. */
uint8_t mixedrun_list(uint32_t kind, uint32_t main_set, uint32_t kib, uint32_t address, uint32_t count,
                      const uint8_t *first, size_t first_length,
                      const uint8_t *second, size_t second_length,
                      uint8_t *out, size_t out_room,
                      uint8_t *trace, size_t trace_room,
                      mixedrun_told *told);

/* Assembles the lines of a text, the first at an address, as `assemble` does. The set is MIXEDRUN_68K or MIXEDRUN_PPC. */
uint8_t mixedrun_assemble(uint32_t set, uint32_t address,
                          const uint8_t *text, size_t text_length,
                          uint8_t *out, size_t out_room,
                          uint8_t *trace, size_t trace_room,
                          mixedrun_told *told);

/* Tells in words what a procInfo word says, as `mixedlook info` does. The status is 0 or MIXEDRUN_NO_MEMORY. */
uint8_t mixedrun_procinfo(uint32_t word, uint8_t *out, size_t out_room, mixedrun_told *told);

/* The version, which is that of the programs: 65536 for each major one, 256 for each minor one, and 1 for each change. */
uint32_t mixedrun_version(void);

#ifdef __cplusplus
}
#endif

#endif
