/*
 * The forest merge for callers in C and C++. Link with target/staticlib/libabi.a, for x86-64.
 * Records, checks and replies are described in docs/MANUAL.md.
 *
 * Lengths. Each buffer is a pointer and a number of elements: bytes for uint8_t, words for uint32_t.
 * A node record has 48 bytes and a table row 8, all numbers little-endian. n is the number of nodes.
 *
 * Empty buffers. Where a length is 0 the pointer must still be non-null and aligned for its element.
 * It is not read: the address of any variable of the element's type will do.
 *
 * Who owns what. The caller owns every buffer. The library allocates nothing, frees nothing, keeps no
 * pointer after it returns and holds no state, so calls on different buffers may run at the same time.
 * A buffer that is written, and `first` and `second`, must overlap no other buffer of the call. Nothing
 * needs an alignment above its element's.
 *
 * The answer is the reply's number; *first and *second are always written with its two values. After a
 * refusal (any number but 0) the outputs and ids are as they were. `work` may hold anything on entry.
 *
 * The stack. A merge takes about 80 bytes for each open node, 333 KB at limit 4,096. Nothing checks it:
 * call it on a thread with 2 MiB or more.
 */
#ifndef FOREST_H
#define FOREST_H

#include <stddef.h>
#include <stdint.h>

#ifdef __cplusplus
extern "C" {
#endif

/* The bytes of a node record and of a table row, and the words of work room for each node. */
#define FOREST_NODE_BYTES 48
#define FOREST_ROW_BYTES 8
#define FOREST_WORK_WORDS 16

/* In an id list: the node is not in the result. */
#define FOREST_NO_ID UINT32_C(4294967295)

/* The lowest and the highest depth limit of a merge. */
#define FOREST_LEAST_LIMIT 1
#define FOREST_MOST_LIMIT 4096

/* Reply numbers; behind each the two values, 0 where none is named. */
enum forest_reply {
    FOREST_ACCEPTED = 0,           /* nodes, roots (forest_validate: nodes, 0) */
    FOREST_BAD_BUFFERS = 1,        /* number of the buffer, as numbered below */
    FOREST_TOO_MANY = 2,           /* */
    FOREST_BAD_RECORD = 3,         /* position */
    FOREST_ROOT_RANGE = 4,         /* place in the whole root buffer */
    FOREST_DUPLICATE_EXTERNAL = 5, /* node */
    FOREST_CHILD_RANGE = 6,        /* position, child */
    FOREST_CYCLE = 7,              /* position */
    FOREST_TOO_DEEP = 8,           /* position that was not entered */
    FOREST_NO_ROOM = 9,            /* nodes needed, roots needed */
    FOREST_CLASS_ORDER = 10,       /* node */
    FOREST_DIGEST_ORDER = 11,      /* node */
    FOREST_FORWARD_REFERENCE = 12, /* node, child */
    FOREST_BAD_LIMIT = 13          /* */
};

/* Buffers, as FOREST_BAD_BUFFERS names them. */
enum forest_buffer {
    FOREST_BUFFER_TABLE = 1,
    FOREST_BUFFER_NODES = 2,
    FOREST_BUFFER_ROOTS = 3,
    FOREST_BUFFER_NODE_OUT = 4,
    FOREST_BUFFER_ROOT_OUT = 5,
    FOREST_BUFFER_IDS = 6,
    FOREST_BUFFER_WORK = 7
};

/* Whether the node records of one forest stand in canonical order. */
uint32_t forest_validate(const uint8_t *nodes, size_t nodes_len, uint64_t *first, uint64_t *second);

/*
 * One forest in canonical order. node_out_len must be nodes_len, root_out_len must be roots_len, ids_len
 * must be n, and work_len at least 16 n.
 */
uint32_t forest_canonicalize(const uint8_t *nodes, size_t nodes_len,
                             const uint32_t *roots, size_t roots_len,
                             uint8_t *node_out, size_t node_out_len,
                             uint32_t *root_out, size_t root_out_len,
                             uint32_t *ids, size_t ids_len,
                             uint32_t *work, size_t work_len,
                             uint64_t *first, uint64_t *second);

/*
 * Many forests into one: the table has a row for each. ids_len must be n, and work_len at least 16 n. The
 * outputs may have any length; outputs as long as the inputs are always enough. After acceptance the
 * result is the first *first records of node_out and the first *second words of root_out; what stands
 * behind them is unchanged.
 */
uint32_t forest_merge(const uint8_t *table, size_t table_len,
                      const uint8_t *nodes, size_t nodes_len,
                      const uint32_t *roots, size_t roots_len,
                      uint32_t limit,
                      uint8_t *node_out, size_t node_out_len,
                      uint32_t *root_out, size_t root_out_len,
                      uint32_t *ids, size_t ids_len,
                      uint32_t *work, size_t work_len,
                      uint64_t *first, uint64_t *second);

#ifdef __cplusplus
}
#endif

#endif
