/* Judges BitTorrent metainfo files (torrents) of version 1 (BEP 3), version 2 (BEP 52) and hybrids, tells what they
 * describe, and judges proofs of single pieces. The code is proved against definitions of these standards; what is
 * proved, and what the numbers of refusals mean, stands in docs/PROMISES.md and docs/MANUAL.md.
 *
 * Link with -lplovercasket. The library is for x86-64 Linux. Of the C library it calls malloc, realloc, free, memcpy,
 * memmove and memset alone.
 *
 * What holds of every function:
 *   - It has no state, starts no thread, calls nothing back and opens no file. Any number of threads may call it at
 *     once. Do not call it from a signal handler, nor between fork and exec in the child of a process with threads.
 *   - The caller owns all memory that is passed, and keeps it. A function frees what it takes for itself before it
 *     returns, so there is nothing to free.
 *   - No pointer may be NULL, not even beside a length, a room or a count of 0: pass any other address then. Mind that
 *     data() of an empty std::vector may be NULL. Pointers to bytes and to plover_hashes need no alignment. One to
 *     plover_outcome has the alignment of its type.
 *   - All bytes that a pointer and its length name must be there, PTRDIFF_MAX at most. The same holds of a room: never
 *     pass SIZE_MAX for "enough".
 *   - What a function writes to (`report`, `link`, `hashes`, `outcome`) must not overlap anything else that is passed.
 *     It need not be set before.
 *   - Until a function returns, nothing else may change what it reads, nor use what it writes to. So do not pass a
 *     mapping of a file that another process may write: read the file into memory first.
 *   - Time and memory are in proportion to the input, but for the time of plover_check: see there.
 *   - The answer is 0 exactly if it is "yes". Treat each other number as "no", also one that is not listed here. */
#ifndef PLOVERCASKET_H
#define PLOVERCASKET_H

#include <stdbool.h>
#include <stddef.h>
#include <stdint.h>

#ifdef __cplusplus
extern "C" {
#endif

#if defined(__GNUC__) || defined(__clang__)
#define PLOVER_CALL __attribute__((nonnull, warn_unused_result))
#else
#define PLOVER_CALL
#endif

/* The answers. Of bytes that are no torrent: the least number whose condition holds, 1 of V1 up to 25 of V25, as
 * `tor check` tells it. New refusals would get numbers from 26 to 99. */
enum {
    PLOVER_OK = 0,                /* the bytes are a torrent; the proof holds */
    PLOVER_BENCODE = 1,           /* V1: the bytes are no bencode; offset and fault say where and why */
    PLOVER_ROOT_SHAPE = 2,        /* V2: the root is no dictionary */
    PLOVER_INFO_SHAPE = 3,        /* V3: `info` is absent or no dictionary */
    PLOVER_META_VERSION = 4,      /* V4: `meta version` is there and is not 2 */
    PLOVER_PIECE_LENGTH = 5,      /* V5: `piece length` is absent, or no length of pieces */
    PLOVER_NAME = 6,              /* V6: `name` is absent, or no name, as `..` or one with a `/` */
    PLOVER_LENGTH_AND_FILES = 7,  /* V7: both or neither of `length` and `files` are there */
    PLOVER_FILE_SHAPE = 8,        /* V8: what describes a file has not its shape, or a path has what is no name */
    PLOVER_FILE_LENGTH = 9,       /* V9: a length is negative */
    PLOVER_DUPLICATE = 10,        /* V10: two files have one path */
    PLOVER_FILE_AND_FOLDER = 11,  /* V11: the path of a file is the beginning of another's */
    PLOVER_NO_FILES = 12,         /* V12: there is no file */
    PLOVER_TOO_LARGE = 13,        /* V13: a length, or all of them together, are too large */
    PLOVER_SYMLINK = 14,          /* V14: a file is a symbolic link */
    PLOVER_PIECES_LENGTH = 15,    /* V15: `pieces` is not 20 bytes for each piece */
    PLOVER_MIXED_NODE = 16,       /* V16: a folder of the file tree is a file too */
    PLOVER_ROOT_HASH = 17,        /* V17: a file that is not empty has no `pieces root` of 32 bytes */
    PLOVER_LAYERS_ABSENT = 18,    /* V18: `piece layers` is needed and absent, or no dictionary */
    PLOVER_LAYER_ABSENT = 19,     /* V19: a file longer than a piece has no layer */
    PLOVER_LAYER_LENGTH = 20,     /* V20: a layer is not 32 bytes for each piece of its file */
    PLOVER_LAYER_ROOT = 21,       /* V21: a layer has not the root of its file */
    PLOVER_FILES_DIFFER = 22,     /* V22: the two sides of a hybrid describe other files */
    PLOVER_ALIGNMENT = 23,        /* V23: the two sides of a hybrid place their files otherwise */
    PLOVER_MEMORY = 24,           /* V24: memory was refused; of the input this says nothing */
    PLOVER_ATTR_DIFFER = 25,      /* V25: the two sides of a hybrid give a file other letters of `attr` */
    PLOVER_NO_ROOM = 100,         /* the bytes are a torrent, whose text is longer than the room */
    PLOVER_NOT_PROVED = 101,      /* the proof does not hold */
    PLOVER_BAD_LENGTH = 102,      /* no file with a root has this length: it is 0, or above 2^50 */
    PLOVER_BAD_PIECE_LENGTH = 103 /* nor this piece length: it is no power of two from 2^14 to 2^30 */
};

/* What is told beside an answer. Each number is 0 if the answer has none. All three are written at every call. */
typedef struct plover_outcome {
    size_t length;  /* bytes of the text that is asked for: written if PLOVER_OK, wanted if PLOVER_NO_ROOM */
    size_t offset;  /* of PLOVER_BENCODE: the offset of the first fault, in bytes from the start of the input */
    uint32_t fault; /* of PLOVER_BENCODE: 1 of B1 Truncated, 2 BadByte, 3 BadInteger, 4 IntegerRange, 5 BadLength,
                       6 KeyNotBytes, 7 KeyOrder, 8 TooDeep, 9 of B9 Trailing */
} plover_outcome;

/* The info hashes of a torrent: the SHA-1 of `info` if it has the keys of version 1, and the SHA-256 if it has those of
 * version 2. One that there is not is all zeros. The struct has 54 bytes, with no padding. */
typedef struct plover_hashes {
    bool has_v1;
    uint8_t v1[20];
    bool has_v2;
    uint8_t v2[32];
} plover_hashes;

/* Judges the torrent in `length` bytes, and writes what it describes to `report`, where `room` bytes are free: the one
 * JSON object that `tor check --json` prints, in UTF-8 on one line, without a line feed and without a zero byte at its
 * end. If the text is longer than the room, the answer is PLOVER_NO_ROOM and `outcome->length` says how much is wanted:
 * call again with a room of so many bytes. A first room of `length` and 1024 bytes is enough for few files, but not
 * for twenty short ones. Bytes of `report` past the text stay as they are, and all of it does if the answer
 * is not PLOVER_OK.
 *
 * The text has the whole path of each file. Of a hostile torrent, of many files below a folder with a long name, it has
 * the square of the torrent's length: 2 GB for 460,000 bytes. What does not fit is counted, and takes time but no
 * memory. If you need no list of files, call plover_info_hashes, which judges the same in proportion to the input. */
PLOVER_CALL uint32_t plover_check(const uint8_t *torrent, size_t length, uint8_t *report, size_t room,
                                  plover_outcome *outcome);

/* The same with the magnet link of the torrent for the text, as `tor magnet` prints it, without a line feed: `magnet:?`
 * and a topic for each info hash, at most 141 bytes of ASCII. */
PLOVER_CALL uint32_t plover_magnet(const uint8_t *torrent, size_t length, uint8_t *link, size_t room,
                                   plover_outcome *outcome);

/* Judges the torrent in `length` bytes, and writes its info hashes to `hashes`, which stay as they are if the answer is
 * not PLOVER_OK. */
PLOVER_CALL uint32_t plover_info_hashes(const uint8_t *torrent, size_t length, plover_hashes *hashes,
                                        plover_outcome *outcome);

/* Whether `hash` is that of piece `index`, from 0, of the file of `length` bytes whose `pieces root` is `root`, as its
 * `count` siblings say (BEP 52, "piece layers"). `root` and `hash` have 32 bytes, and `siblings` 32 times `count`,
 * lowest first. Of a file of at most one piece the only index is 0, `hash` is the root, and there is no sibling. If the
 * file has no such piece, or `count` is not the number of siblings of one, the answer is PLOVER_NOT_PROVED. */
PLOVER_CALL uint32_t plover_verify(const uint8_t *root, uint64_t length, uint64_t piece_length, uint64_t index,
                                   const uint8_t *hash, const uint8_t *siblings, size_t count);

/* The same of the `size` bytes of the piece in place of its hash. Each piece has `piece_length` bytes, and the last of
 * the file what is left. If `size` is any other number, the answer is PLOVER_NOT_PROVED. */
PLOVER_CALL uint32_t plover_verify_bytes(const uint8_t *root, uint64_t length, uint64_t piece_length, uint64_t index,
                                         const uint8_t *bytes, size_t size, const uint8_t *siblings, size_t count);

#ifdef __cplusplus
}
#endif

#endif
