/* A frame at a desk, from C: points come in, trackers move their own in one batch, maintain ends the frame, a circle finds what is near a wrist; and the map
   that tells the encoder where to spend its bits.
   ./examples/run compiles and runs it, and compares what it prints with frame.out. */
#include <stdio.h>
#include <stdlib.h>

#include "chavrupas.h"

enum { SLOTS = 4, CELL = 64 };
/* The trackers of this desk, of eight that there may be. */
enum { HANDS = 0, LAMPS = 1 };

static CHAVRUPAS_POINT_GRID(SLOTS) desk;

/* Every answer is looked at: one that is not 0 has changed nothing. */
static void done(uint32_t answer, const char *call)
{
    if (answer == 0) return;
    fprintf(stderr, "%s: answer %u\n", call, (unsigned)answer);
    exit(1);
}

static chavrupas_handle enter(float x, float y, uint32_t obj, uint32_t tracker)
{
    chavrupas_inserted r = chavrupas_points_insert(CHAVRUPAS_POINTS(desk), x, y, obj, tracker);
    done(r.answer, "insert");
    return (chavrupas_handle){r.slot, r.version};
}

/* The trackers' calls of one frame, with one check of the tables: two moves and a removal. */
static void track(chavrupas_handle hand, chavrupas_handle finger, chavrupas_handle lamp)
{
    const uint32_t kinds[] = {0, 0, 1};
    const chavrupas_tracked handles[] = {{hand.slot, hand.version, HANDS}, {finger.slot, finger.version, HANDS}, {lamp.slot, lamp.version, LAMPS}};
    const chavrupas_position positions[] = {{2100, 500}, {2112, 508}, {0, 0}};
    chavrupas_reply out[3];
    chavrupas_batch_reply r = chavrupas_points_batch(CHAVRUPAS_POINTS(desk), CHAVRUPAS_ALL(kinds), CHAVRUPAS_ALL(handles),
        CHAVRUPAS_ALL(positions), CHAVRUPAS_ALL(out));
    done(r.answer, "batch");
    for (uint64_t i = 0; i < r.count; i++) done(out[i].answer, "a call of the batch");
    printf("batch of %u; the last call removed data %u\n", (unsigned)r.count, (unsigned)out[2].obj);
}

static void circle(float x, float y, float radius)
{
    chavrupas_handle found[SLOTS];
    chavrupas_position places[SLOTS];
    chavrupas_point_data objs[SLOTS];
    chavrupas_count r = chavrupas_points_query_around(CHAVRUPAS_POINTS(desk), x, y, radius, CHAVRUPAS_ALL(found), CHAVRUPAS_ALL(places),
        CHAVRUPAS_ALL(objs));
    done(r.answer, "query_around");
    printf("within %g of (%g, %g): %u\n", radius, x, y, (unsigned)r.count);
    for (uint32_t i = 0; i < r.count; i++)
        printf("  slot %u version %u at (%g, %g) data %u tracker %u\n", (unsigned)found[i].slot, (unsigned)found[i].version, places[i].x, places[i].y,
            (unsigned)objs[i].obj, (unsigned)objs[i].tracker);
}

/* The one that is nearest to a fingertip, if any is within the radius: no output is lent. */
static void nearest(float x, float y, float radius)
{
    chavrupas_nearest r = chavrupas_points_nearest(CHAVRUPAS_POINTS(desk), x, y, radius);
    done(r.answer, "nearest");
    printf("nearest to (%g, %g): ", x, y);
    if (r.count == 0) printf("none within %g\n", radius);
    else printf("slot %u version %u at (%g, %g) data %u tracker %u\n", (unsigned)r.slot, (unsigned)r.version, r.x, r.y, (unsigned)r.obj, (unsigned)r.tracker);
}

/* The map for the encoder, of two grids with cells of 16: the blocks that are not 0. */
static void map(void)
{
    static CHAVRUPAS_POINT_GRID(SLOTS) points;
    static CHAVRUPAS_BOX_GRID(1, 8) boxes;
    static uint8_t bytes[CHAVRUPAS_FRAME_BLOCKS];
    const chavrupas_circle wrists[] = {{100, 500, 30}};
    done(chavrupas_points_new(CHAVRUPAS_POINTS(points), 16), "new");
    done(chavrupas_boxes_new(CHAVRUPAS_BOXES(boxes), 16), "new");
    done(chavrupas_points_insert(CHAVRUPAS_POINTS(points), 100, 500, 1, HANDS).answer, "insert");
    done(chavrupas_points_insert(CHAVRUPAS_POINTS(points), 640, 200, 2, HANDS).answer, "insert");
    done(chavrupas_boxes_insert(CHAVRUPAS_BOXES(boxes), 90, 490, 110, 495, 1).answer, "insert");
    done(chavrupas_encoder_fill_map(CHAVRUPAS_POINTS(points), CHAVRUPAS_BOXES(boxes), CHAVRUPAS_ALL(wrists), CHAVRUPAS_ALL(bytes)), "fill_map");
    for (unsigned k = 0; k < CHAVRUPAS_FRAME_BLOCKS; k++)
        if (bytes[k] != 0) printf("block (%u, %u): %u\n", k % CHAVRUPAS_FRAME_COLUMNS, k / CHAVRUPAS_FRAME_COLUMNS, (unsigned)bytes[k]);
}

int main(void)
{
    done(chavrupas_points_new(CHAVRUPAS_POINTS(desk), CELL), "new");
    chavrupas_handle hand = enter(100, 500, 1, HANDS), finger = enter(112, 508, 2, HANDS), lamp = enter(2090, 520, 3, LAMPS);

    track(hand, finger, lamp);
    circle(100, 500, 30); /* what is pending is not seen before maintain */
    chavrupas_maintained m = chavrupas_points_maintain(CHAVRUPAS_POINTS(desk));
    done(m.answer, "maintain");
    printf("maintain: %u moved, %u removed\n", (unsigned)m.moved, (unsigned)m.removed);
    circle(100, 500, 30);
    circle(2100, 500, 30); /* 2,000 pixels in a frame, and not lost */
    nearest(2110, 505, 30);
    nearest(100, 500, 30);

    chavrupas_point_got g = chavrupas_points_get(CHAVRUPAS_POINTS(desk), lamp.slot, lamp.version);
    printf("the lamp's handle: answer %u\n", (unsigned)g.answer);
    uint32_t other = chavrupas_points_set_position(CHAVRUPAS_POINTS(desk), hand.slot, hand.version, 0, 0, LAMPS);
    printf("the lamps' tracker moves the hand: answer %u\n", (unsigned)other);
    map();
    return 0;
}
