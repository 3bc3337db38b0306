/* Chavrupas: a grid of points and a grid of boxes, for C. Every call has a machine-checked proof of what it answers, writes and leaves alone.

   Build      tools/staticlib            writes target/staticlib/libexports.a; for x86-64 Linux only
   Link       cc -I include yours.c target/staticlib/libexports.a
   Example    examples/frame.c; ./examples/run builds and runs it

   A grid is a few tables of plain numbers that the caller owns and lends to every call: no heap, no hidden state, no threads. Declare them with
   CHAVRUPAS_POINT_GRID or CHAVRUPAS_BOX_GRID below, or allocate them as you like; all that counts is their lengths. A table may be moved or
   copied between calls, for it has no pointers. docs/TABLES.md says what each number in it is: read them freely, but let the calls write them.

   In a call each table, list and output is a pointer, then its length in elements (rows, not bytes), never more than the memory behind it has.

   Answers. Every call answers by number, first that applies in the order 3, 2, 6, 13, 11 or 12, 14, 1, 7, 4, 8, 9:
     0  done
     1  set_position on an object marked removed
     2  cell size outside its limits (building)
     3  tables of wrong length or not holding a grid; of fill_map also another cell size, length or number of circles
     4  no usable slot
     6  coordinate or radius outside the domain, box reversed
     7  range or box over 4,096 cells
     8  entries in use, less the box's old ones, plus its new ones, exceed the pool
     9  output shorter than the findings: the count says how long it must be
    11  handle never issued: every handle that is neither good nor gone; there is no such slot, or it had no object at that version
    12  handle gone: the version is at least 1 and below that of its slot, or its slot is retired and was emptied at that version
    13  tracker number above 7
    14  point of another tracker
   A handle that a call gave gets 12 once its object is taken out, until the tables are built anew; 11 is a wrong number. 5 is no longer given.
   A call that does not answer 0 changes no table and no output, and the rest of what it returns is zero, but for the count of 9.
   A call that answers 0 writes only the places of an output that it fills.

   What the library refuses, and what it cannot. Any length (0 too), any number, NaN and infinities, any handle and any damage to the tables get an
   answer, and never a trap. It cannot see where a pointer points. These are the caller's fault, and undefined as in all of C: a pointer that is null
   or misaligned (rows are aligned as their numbers: 8 bytes for uint64_t, 1 for uint8_t, 4 for the others) or that reaches less memory than its length says; a table
   or output that the call writes (no const) and that overlaps another; two calls at once of which one writes what the other reads or writes.
   Where the length is 0 the pointer is not read, and may be null. A call takes up to 140 KB of stack.

   Domain. Coordinates are finite, from -1,048,576 to 1,048,576. Data is one 32-bit number for an object.

   Trackers. A point is that of one tracker, a number from 0 to 7 that insert is given and that never changes. A call that moves or removes a point names a
   tracker last: where it is not the point's the call gets 14 and changes nothing. So however the deferred calls of several trackers are merged, each tracker's
   own order kept, every tracker gets the same replies and the tables end the same. Boxes have no tracker. */

#ifndef CHAVRUPAS_H
#define CHAVRUPAS_H

#include <stddef.h>
#include <stdint.h>

#ifdef __cplusplus
extern "C" {
#endif

/* ---- what calls take and return */

/* An object: good while its slot is occupied at that version. No good handle has version 0. */
typedef struct { uint32_t slot, version; } chavrupas_handle;
/* A point, and the tracker that a call names. */
typedef struct { uint32_t slot, version, tracker; } chavrupas_tracked;
/* What a point was inserted with. */
typedef struct { uint32_t obj, tracker; } chavrupas_point_data;
typedef struct { float x, y; } chavrupas_position;
/* Lower left and upper right corner; left <= right and low <= high. */
typedef struct { float left, low, right, high; } chavrupas_aabb;

typedef struct { uint32_t answer, slot, version; } chavrupas_inserted;
typedef struct { uint32_t answer, obj; } chavrupas_reply;
typedef struct { uint32_t answer, count; } chavrupas_count;
typedef struct { uint32_t answer; uint64_t count; } chavrupas_batch_reply;
typedef struct { uint32_t answer, moved, removed; } chavrupas_maintained;
typedef struct { uint32_t answer; float x, y; uint32_t obj, tracker; } chavrupas_point_got;
typedef struct { uint32_t answer, count, slot, version; float x, y; uint32_t obj, tracker; } chavrupas_nearest;
typedef struct { uint32_t answer; float left, low, right, high; uint32_t obj; } chavrupas_box_got;

/* ---- the rows of the tables */

/* The word is 4 times the tracker plus the state. */
typedef struct { uint32_t version, phase, obj, word; } chavrupas_point_nums;
typedef struct { float x, y, pending_x, pending_y; } chavrupas_point_reals;
typedef struct { int32_t cell_x, cell_y, target_x, target_y; } chavrupas_point_ints;
typedef struct { uint32_t version, phase, obj, unused; } chavrupas_box_nums;
typedef struct { uint64_t key, item; } chavrupas_pool_row;
typedef struct { uint64_t key, dirty; } chavrupas_cell_row;

/* ---- tables of the right lengths, as arrays

       static CHAVRUPAS_POINT_GRID(4096) hand;
       chavrupas_points_new(CHAVRUPAS_POINTS(hand), 16);

   CHAVRUPAS_POINTS and CHAVRUPAS_BOXES write out the tables with their lengths; they need the arrays, not pointers to them. */

#define CHAVRUPAS_MOST_POINTS 4096
#define CHAVRUPAS_MOST_BOXES 256
#define CHAVRUPAS_MOST_ENTRIES 8192

/* The words of `map` for n slots. */
#define CHAVRUPAS_MAP_WORDS(n) (3 + ((n) + 63) / 64)

/* The tables of a point grid of n slots, n from 1 to 4,096. */
#define CHAVRUPAS_POINT_GRID(n) \
    struct { \
        chavrupas_point_nums nums[n]; \
        chavrupas_point_reals reals[n]; \
        chavrupas_point_ints ints[n]; \
        uint64_t map[CHAVRUPAS_MAP_WORDS(n)]; \
        chavrupas_pool_row pool[n]; \
        chavrupas_position spots[n]; \
        chavrupas_cell_row cells[n]; \
    }

/* The tables of a box grid of n slots and a pool of p entries, n from 1 to 256, p from 1 to 8,192. */
#define CHAVRUPAS_BOX_GRID(n, p) \
    struct { \
        chavrupas_box_nums nums[n]; \
        chavrupas_aabb reals[n]; \
        uint64_t map[CHAVRUPAS_MAP_WORDS(n)]; \
        chavrupas_pool_row pool[p]; \
    }

/* An array and its length. */
#define CHAVRUPAS_ALL(a) (a), sizeof(a) / sizeof((a)[0])

#define CHAVRUPAS_POINTS(g) \
    CHAVRUPAS_ALL((g).nums), CHAVRUPAS_ALL((g).reals), CHAVRUPAS_ALL((g).ints), CHAVRUPAS_ALL((g).map), \
    CHAVRUPAS_ALL((g).pool), CHAVRUPAS_ALL((g).spots), CHAVRUPAS_ALL((g).cells)

#define CHAVRUPAS_BOXES(g) \
    CHAVRUPAS_ALL((g).nums), CHAVRUPAS_ALL((g).reals), CHAVRUPAS_ALL((g).map), CHAVRUPAS_ALL((g).pool)

/* ---- points: n slots, so n rows each of nums, reals, ints, pool, spots and cells, and CHAVRUPAS_MAP_WORDS(n) words of map. An output of n places
   is always long enough for a query, `handles` and `clear`. */

/* Builds an empty grid with cells of `size`, from 1 to 1,048,576. What stands in the tables before does not matter.
   Answers 3 (lengths only), 2. */
uint32_t chavrupas_points_new(
    chavrupas_point_nums *nums, size_t nums_n, const chavrupas_point_reals *reals, size_t reals_n,
    const chavrupas_point_ints *ints, size_t ints_n, uint64_t *map, size_t map_n, const chavrupas_pool_row *pool, size_t pool_n,
    const chavrupas_position *spots, size_t spots_n, const chavrupas_cell_row *cells, size_t cells_n,
    uint32_t size);

/* A new object at (x, y) with the data `obj`, of tracker `tracker`, from 0 to 7, in the lowest usable slot; queries see it at once. Gives its handle.
   Answers 3, 6, 13, 4. */
chavrupas_inserted chavrupas_points_insert(
    chavrupas_point_nums *nums, size_t nums_n, chavrupas_point_reals *reals, size_t reals_n, chavrupas_point_ints *ints, size_t ints_n,
    uint64_t *map, size_t map_n, chavrupas_pool_row *pool, size_t pool_n, chavrupas_position *spots, size_t spots_n,
    chavrupas_cell_row *cells, size_t cells_n,
    float x, float y, uint32_t obj, uint32_t tracker);

/* The object, which is this tracker's, shall be at (x, y) after the next maintain; until then queries and `get` see it where it is recorded.
   Answers 3, 6, 13, 11, 12, 14, 1. */
uint32_t chavrupas_points_set_position(
    chavrupas_point_nums *nums, size_t nums_n, chavrupas_point_reals *reals, size_t reals_n, chavrupas_point_ints *ints, size_t ints_n,
    const uint64_t *map, size_t map_n, const chavrupas_pool_row *pool, size_t pool_n, const chavrupas_position *spots, size_t spots_n,
    chavrupas_cell_row *cells, size_t cells_n,
    uint32_t slot, uint32_t version, float x, float y, uint32_t tracker);

/* Marks the object, which is this tracker's; the next maintain takes it out. Gives its data, and again if asked again.
   Answers 3, 13, 11, 12, 14. */
chavrupas_reply chavrupas_points_remove(
    chavrupas_point_nums *nums, size_t nums_n, chavrupas_point_reals *reals, size_t reals_n, chavrupas_point_ints *ints, size_t ints_n,
    const uint64_t *map, size_t map_n, const chavrupas_pool_row *pool, size_t pool_n, const chavrupas_position *spots, size_t spots_n,
    chavrupas_cell_row *cells, size_t cells_n,
    uint32_t slot, uint32_t version, uint32_t tracker);

/* Many deferred calls one after the other, with one check of the tables: kind 0 is set_position, any other is remove (its position is not read).
   Call i names a handle and a tracker in handles[i], and gets its own answer and data in out[i]; the three lists have one length, and `out` at least that.
   Gives the number of calls.
   Answers 3 (also for lists of unequal length), 9 with the number of calls: then nothing is done. */
chavrupas_batch_reply chavrupas_points_batch(
    chavrupas_point_nums *nums, size_t nums_n, chavrupas_point_reals *reals, size_t reals_n, chavrupas_point_ints *ints, size_t ints_n,
    const uint64_t *map, size_t map_n, const chavrupas_pool_row *pool, size_t pool_n, const chavrupas_position *spots, size_t spots_n,
    chavrupas_cell_row *cells, size_t cells_n,
    const uint32_t *kinds, size_t kinds_n, const chavrupas_tracked *handles, size_t handles_n,
    const chavrupas_position *positions, size_t positions_n, chavrupas_reply *out, size_t out_n);

/* Ends the frame: pending moves and removals are applied. Gives how many objects moved and how many were removed. Moved are those whose place is
   another by its numbers than before (-0.0 and 0.0 are the same); one that was sent where it is does not count, but takes the bits that were sent.
   Answers 3. */
chavrupas_maintained chavrupas_points_maintain(
    chavrupas_point_nums *nums, size_t nums_n, chavrupas_point_reals *reals, size_t reals_n, chavrupas_point_ints *ints, size_t ints_n,
    uint64_t *map, size_t map_n, chavrupas_pool_row *pool, size_t pool_n, chavrupas_position *spots, size_t spots_n,
    chavrupas_cell_row *cells, size_t cells_n);

/* Takes the object, which is this tracker's, out now, whatever is pending for it. Gives its data.
   Answers 3, 13, 11, 12, 14. */
chavrupas_reply chavrupas_points_remove_maintain(
    chavrupas_point_nums *nums, size_t nums_n, const chavrupas_point_reals *reals, size_t reals_n,
    const chavrupas_point_ints *ints, size_t ints_n, uint64_t *map, size_t map_n, chavrupas_pool_row *pool, size_t pool_n,
    chavrupas_position *spots, size_t spots_n, chavrupas_cell_row *cells, size_t cells_n,
    uint32_t slot, uint32_t version, uint32_t tracker);

/* Writes the recorded position, the data and the tracker of every object, ascending by slot, then empties the grid; old handles answer 12 from then on.
   Answers 3, 9 with the number of objects. */
chavrupas_count chavrupas_points_clear(
    chavrupas_point_nums *nums, size_t nums_n, const chavrupas_point_reals *reals, size_t reals_n,
    const chavrupas_point_ints *ints, size_t ints_n, uint64_t *map, size_t map_n, const chavrupas_pool_row *pool, size_t pool_n,
    const chavrupas_position *spots, size_t spots_n, const chavrupas_cell_row *cells, size_t cells_n,
    chavrupas_position *places, size_t places_n, chavrupas_point_data *objs, size_t objs_n);

/* The recorded position, the data and the tracker of an object.
   Answers 3, 11, 12. */
chavrupas_point_got chavrupas_points_get(
    const chavrupas_point_nums *nums, size_t nums_n, const chavrupas_point_reals *reals, size_t reals_n,
    const chavrupas_point_ints *ints, size_t ints_n, const uint64_t *map, size_t map_n, const chavrupas_pool_row *pool, size_t pool_n,
    const chavrupas_position *spots, size_t spots_n, const chavrupas_cell_row *cells, size_t cells_n,
    uint32_t slot, uint32_t version);

/* The number of objects; removed ones count until maintain.
   Answers 3. */
chavrupas_count chavrupas_points_len(
    const chavrupas_point_nums *nums, size_t nums_n, const chavrupas_point_reals *reals, size_t reals_n,
    const chavrupas_point_ints *ints, size_t ints_n, const uint64_t *map, size_t map_n, const chavrupas_pool_row *pool, size_t pool_n,
    const chavrupas_position *spots, size_t spots_n, const chavrupas_cell_row *cells, size_t cells_n);

/* The handles of all objects, ascending by slot.
   Answers 3, 9 with the number of objects. */
chavrupas_count chavrupas_points_handles(
    const chavrupas_point_nums *nums, size_t nums_n, const chavrupas_point_reals *reals, size_t reals_n,
    const chavrupas_point_ints *ints, size_t ints_n, const uint64_t *map, size_t map_n, const chavrupas_pool_row *pool, size_t pool_n,
    const chavrupas_position *spots, size_t spots_n, const chavrupas_cell_row *cells, size_t cells_n,
    chavrupas_handle *out, size_t out_n);

/* Every object of the cells from that of (left, low) to that of (right, high): handles, and beside them recorded positions, and data with trackers. The
   shortest of the three outputs counts. Reversed corners find nothing.
   Answers 3, 6, 7, 9 with the number found. */
chavrupas_count chavrupas_points_query(
    const chavrupas_point_nums *nums, size_t nums_n, const chavrupas_point_reals *reals, size_t reals_n,
    const chavrupas_point_ints *ints, size_t ints_n, const uint64_t *map, size_t map_n, const chavrupas_pool_row *pool, size_t pool_n,
    const chavrupas_position *spots, size_t spots_n, const chavrupas_cell_row *cells, size_t cells_n,
    float left, float low, float right, float high, chavrupas_handle *found, size_t found_n, chavrupas_position *places, size_t places_n,
    chavrupas_point_data *objs, size_t objs_n);

/* The objects strictly nearer to (x, y) than `radius`, which is from 0 to 1,048,576; the test is in float, each operation rounded once. Writes handles,
   recorded positions, data and trackers, as `query` does.
   Answers 3, 6, 7, 9 with the number found. */
chavrupas_count chavrupas_points_query_around(
    const chavrupas_point_nums *nums, size_t nums_n, const chavrupas_point_reals *reals, size_t reals_n,
    const chavrupas_point_ints *ints, size_t ints_n, const uint64_t *map, size_t map_n, const chavrupas_pool_row *pool, size_t pool_n,
    const chavrupas_position *spots, size_t spots_n, const chavrupas_cell_row *cells, size_t cells_n,
    float x, float y, float radius, chavrupas_handle *found, size_t found_n, chavrupas_position *places, size_t places_n,
    chavrupas_point_data *objs, size_t objs_n);

/* The objects of a rectangle, edges included; its corners may come in any order. Writes handles, recorded positions, data and trackers, as `query` does.
   Answers 3, 6, 7, 9 with the number found. */
chavrupas_count chavrupas_points_query_aabb(
    const chavrupas_point_nums *nums, size_t nums_n, const chavrupas_point_reals *reals, size_t reals_n,
    const chavrupas_point_ints *ints, size_t ints_n, const uint64_t *map, size_t map_n, const chavrupas_pool_row *pool, size_t pool_n,
    const chavrupas_position *spots, size_t spots_n, const chavrupas_cell_row *cells, size_t cells_n,
    float left, float low, float right, float high, chavrupas_handle *found, size_t found_n, chavrupas_position *places, size_t places_n,
    chavrupas_point_data *objs, size_t objs_n);

/* The nearest of the objects that `query_around` would find for this circle, and of equally near ones that of the lowest slot; distances are compared squared,
   in float, each operation rounded once. Gives count 1 with handle, recorded position, data and tracker; count 0 and zeros if the circle is empty. It writes
   to no output, and so never answers 9.
   Answers 3, 6, 7. */
chavrupas_nearest chavrupas_points_nearest(
    const chavrupas_point_nums *nums, size_t nums_n, const chavrupas_point_reals *reals, size_t reals_n,
    const chavrupas_point_ints *ints, size_t ints_n, const uint64_t *map, size_t map_n, const chavrupas_pool_row *pool, size_t pool_n,
    const chavrupas_position *spots, size_t spots_n, const chavrupas_cell_row *cells, size_t cells_n,
    float x, float y, float radius);

/* ---- boxes: n slots and p entries, so n rows each of nums and reals, CHAVRUPAS_MAP_WORDS(n) words of map, and p rows of pool. An output of n
   places is always long enough. A box is left, low, right, high. */

/* Builds an empty grid with cells of `size`, from 1 to 1,048,576. What stands in the tables before does not matter.
   Answers 3 (lengths only), 2. */
uint32_t chavrupas_boxes_new(
    chavrupas_box_nums *nums, size_t nums_n, const chavrupas_aabb *reals, size_t reals_n, uint64_t *map, size_t map_n,
    const chavrupas_pool_row *pool, size_t pool_n,
    uint32_t size);

/* A new object with a box and the data `obj`, in the lowest usable slot. It takes one entry of the pool for each cell that it covers.
   Answers 3, 6, 7, 4, 8. */
chavrupas_inserted chavrupas_boxes_insert(
    chavrupas_box_nums *nums, size_t nums_n, chavrupas_aabb *reals, size_t reals_n, uint64_t *map, size_t map_n,
    chavrupas_pool_row *pool, size_t pool_n,
    float left, float low, float right, float high, uint32_t obj);

/* Another box for the object, at once.
   Answers 3, 6, 11, 12, 7, 8. */
uint32_t chavrupas_boxes_set_aabb(
    const chavrupas_box_nums *nums, size_t nums_n, chavrupas_aabb *reals, size_t reals_n, uint64_t *map, size_t map_n,
    chavrupas_pool_row *pool, size_t pool_n,
    uint32_t slot, uint32_t version, float left, float low, float right, float high);

/* Takes the object out at once. Gives its data.
   Answers 3, 11, 12. */
chavrupas_reply chavrupas_boxes_remove(
    chavrupas_box_nums *nums, size_t nums_n, const chavrupas_aabb *reals, size_t reals_n, uint64_t *map, size_t map_n,
    chavrupas_pool_row *pool, size_t pool_n,
    uint32_t slot, uint32_t version);

/* Writes the box and the data of every object, ascending by slot, then empties the grid; old handles answer 12 from then on.
   Answers 3, 9 with the number of objects. */
chavrupas_count chavrupas_boxes_clear(
    chavrupas_box_nums *nums, size_t nums_n, const chavrupas_aabb *reals, size_t reals_n, uint64_t *map, size_t map_n,
    const chavrupas_pool_row *pool, size_t pool_n,
    chavrupas_aabb *boxes, size_t boxes_n, uint32_t *objs, size_t objs_n);

/* The box and the data of an object.
   Answers 3, 11, 12. */
chavrupas_box_got chavrupas_boxes_get(
    const chavrupas_box_nums *nums, size_t nums_n, const chavrupas_aabb *reals, size_t reals_n, const uint64_t *map, size_t map_n,
    const chavrupas_pool_row *pool, size_t pool_n,
    uint32_t slot, uint32_t version);

/* The number of objects.
   Answers 3. */
chavrupas_count chavrupas_boxes_len(
    const chavrupas_box_nums *nums, size_t nums_n, const chavrupas_aabb *reals, size_t reals_n, const uint64_t *map, size_t map_n,
    const chavrupas_pool_row *pool, size_t pool_n);

/* The handles of all objects, ascending by slot.
   Answers 3, 9 with the number of objects. */
chavrupas_count chavrupas_boxes_handles(
    const chavrupas_box_nums *nums, size_t nums_n, const chavrupas_aabb *reals, size_t reals_n, const uint64_t *map, size_t map_n,
    const chavrupas_pool_row *pool, size_t pool_n,
    chavrupas_handle *out, size_t out_n);

/* The handles of the boxes that share a cell with the query box, each once.
   Answers 3, 6, 7, 9 with the number found. */
chavrupas_count chavrupas_boxes_query_broad(
    const chavrupas_box_nums *nums, size_t nums_n, const chavrupas_aabb *reals, size_t reals_n, const uint64_t *map, size_t map_n,
    const chavrupas_pool_row *pool, size_t pool_n,
    float left, float low, float right, float high, chavrupas_handle *found, size_t found_n);

/* Handle, box and data of those that the query box intersects, edges included. The test is in float, so rounding decides at the edges.
   Answers 3, 6, 7, 9 with the number found. */
chavrupas_count chavrupas_boxes_query(
    const chavrupas_box_nums *nums, size_t nums_n, const chavrupas_aabb *reals, size_t reals_n, const uint64_t *map, size_t map_n,
    const chavrupas_pool_row *pool, size_t pool_n,
    float left, float low, float right, float high, chavrupas_handle *found, size_t found_n, chavrupas_aabb *boxes, size_t boxes_n,
    uint32_t *objs, size_t objs_n);

/* ---- the map for the video encoder, above a point grid and a box grid that both have cells of 16: a byte for each 16 by 16 block of a frame of 80 by 45
   blocks. Byte j * 80 + i is the block from (16 i, 16 j) to (16 i + 16, 16 j + 16), row by row, y growing downwards. */

#define CHAVRUPAS_FRAME_COLUMNS 80
#define CHAVRUPAS_FRAME_ROWS 45
#define CHAVRUPAS_FRAME_BLOCKS 3600
#define CHAVRUPAS_MOST_CIRCLES 16

typedef struct { float x, y, radius; } chavrupas_circle;

/* Fills the map. 3: a point that some circle finds, as `query_around` would, lies in the block, left and top edge in, right and bottom out; else 2: the box
   `query` with the block's four corners finds a box; else 1: some point is recorded in the block; else 0. What is pending does not count: a point stands
   where it is recorded, and one that is marked removed counts, until `maintain`. The grids are only read; circles_n may be 0.
   Answers 3 (also if a grid's cell size is not 16, bytes_n is not 3,600 or circles_n is over 16), 6 if any circle is outside the domain, 7 if any circle's
   range has over 4,096 cells: all are looked at for 6 before one is for 7. */
uint32_t chavrupas_encoder_fill_map(
    const chavrupas_point_nums *nums, size_t nums_n, const chavrupas_point_reals *reals, size_t reals_n, const chavrupas_point_ints *ints, size_t ints_n,
    const uint64_t *map, size_t map_n, const chavrupas_pool_row *pool, size_t pool_n, const chavrupas_position *spots, size_t spots_n,
    const chavrupas_cell_row *cells, size_t cells_n,
    const chavrupas_box_nums *box_nums, size_t box_nums_n, const chavrupas_aabb *box_reals, size_t box_reals_n,
    const uint64_t *box_map, size_t box_map_n, const chavrupas_pool_row *box_pool, size_t box_pool_n,
    const chavrupas_circle *circles, size_t circles_n, uint8_t *bytes, size_t bytes_n);

#ifdef __cplusplus
}
#endif

#endif
