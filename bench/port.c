/* port DATA: the port's side. What is counted stands between two requests to callgrind; a line on standard output says what the calls found. */
#include "calls.h"
#include <stdio.h>
#include <stdlib.h>
#include <string.h>
#include <valgrind/callgrind.h>

enum { MOST = 4096, ENTRIES = 8192, PICKS = 16, FRAMES = 3 };
typedef float Spot[2];
typedef float Box[4];

static struct {
  uint32_t nums[MOST][4];
  float reals[MOST][4];
  int32_t ints[MOST][4];
  uint64_t map[3 + MOST / 64], pool[ENTRIES][2];
  Spot spots[MOST];
  uint64_t cells[MOST][2];
} t, kept;
/* The box grid of the map. */
static struct {
  uint32_t nums[256][4];
  Box reals[256];
  uint64_t map[3 + 256 / 64], pool[ENTRIES][2];
} b;
static uint32_t n, kinds[MOST], handles[MOST][3], found[MOST][2], objs[MOST][2];
static Spot frames[FRAMES + 1][MOST], centres[PICKS], places[MOST];
static Box boxes[256], same[PICKS], other[PICKS], asked[PICKS], found_boxes[256];
static uint32_t picked[PICKS];
static float circles[PICKS][3];
static uint8_t bytes[3600];
static Slice box_nums = {b.nums, 256}, box_reals = {b.reals, 256}, box_map = {b.map, 3 + 256 / 64}, box_pool = {b.pool, ENTRIES};
static Slice circles_ = {circles, PICKS}, bytes_ = {bytes, 3600};
static Slice nums, reals, ints, map, pool, spots, cells, kinds_, handles_, found_, places_, objs_, found_boxes_;
/* A slice is lent as its start and its length. */
#define LENT(slice) (slice).start, (slice).length
#define POINTS LENT(nums), LENT(reals), LENT(ints), LENT(map), LENT(pool), LENT(spots), LENT(cells)
#define BOXES LENT(nums), LENT(reals), LENT(map), LENT(pool)
#define MAP_BOXES LENT(box_nums), LENT(box_reals), LENT(box_map), LENT(box_pool)
#define MAP POINTS, MAP_BOXES, LENT(circles_), LENT(bytes_)
#define QUERY LENT(found_), LENT(places_), LENT(objs_)

#define OF(b) (b)[0], (b)[1], (b)[2], (b)[3]

/* One region, over `times` calls; `k` counts them. Their results are added up. */
#define COUNT(label, times, call)                               \
  do {                                                          \
    unsigned long sum = 0;                                      \
    CALLGRIND_ZERO_STATS;                                       \
    for (unsigned k = 0; k < (times); k++) sum += (call);       \
    CALLGRIND_DUMP_STATS_AT(label);                             \
    printf("%s %u %lu\n", label, (unsigned)(times), sum);       \
  } while (0)

/* The same, and the tables are then as they were kept. */
#define UNDONE(label, times, call) \
  do {                             \
    COUNT(label, times, call);     \
    t = kept;                      \
  } while (0)

static void must(int ok, const char *what) {
  if (!ok) {
    fprintf(stderr, "port: %s\n", what);
    exit(1);
  }
}
static void get(FILE *f, void *to, size_t size, size_t count) { must(fread(to, size, count, f) == count, "the data is short"); }

static void lend(uint32_t slots, size_t entries) {
  n = slots;
  nums = (Slice){t.nums, n}, reals = (Slice){t.reals, n}, ints = (Slice){t.ints, n}, map = (Slice){t.map, 3 + (n + 63) / 64};
  pool = (Slice){t.pool, entries}, spots = (Slice){t.spots, n}, cells = (Slice){t.cells, n};
  kinds_ = (Slice){kinds, n}, handles_ = (Slice){handles, n}, found_ = (Slice){found, MOST}, places_ = (Slice){places, MOST};
  objs_ = (Slice){objs, MOST}, found_boxes_ = (Slice){found_boxes, 256};
}
static void start(void) {
  kept = t;
  CALLGRIND_START_INSTRUMENTATION;
  COUNT("empty", 1, 0);
}

#define PICK (k * (n / PICKS) + 3)
/* The tracker of the point in a slot: all eight in turn. */
#define TRACKER(s) ((s) % 8)
static uint32_t set_position(uint32_t s) { return points_set_position(POINTS, s, 1, frames[1][s][0], frames[1][s][1], TRACKER(s)); }
static uint32_t set_position_bare(uint32_t s) { return points_set_position_bare(POINTS, s, 1, frames[1][s][0], frames[1][s][1], TRACKER(s)); }
static uint32_t around(Spot c, float r) { return points_query_around(POINTS, c[0], c[1], r, QUERY); }
static uint32_t around_bare(Spot c, float r) { return points_query_around_bare(POINTS, c[0], c[1], r, QUERY); }
static uint32_t nearest(Spot c, float r) { return points_nearest(POINTS, c[0], c[1], r); }
static uint32_t nearest_bare(Spot c, float r) { return points_nearest_bare(POINTS, c[0], c[1], r); }

/* Calls of the proved static library, where there is one, to hold the figures of the unproved port to. */
#ifdef PROVED
#include "chavrupas.h"
static void proved_frame(Slice to) {
  COUNT("batch proved", 1, chavrupas_points_batch(POINTS, LENT(kinds_), LENT(handles_), LENT(to), LENT(found_)).answer);
  COUNT("maintain proved", 1, chavrupas_points_maintain(POINTS).moved);
  COUNT("frame map proved", 1, chavrupas_encoder_fill_map(MAP));
  UNDONE("circles proved", PICKS,
         chavrupas_points_query_around(POINTS, centres[k][0], centres[k][1], 60, QUERY).count);
}
static void proved_boxes(void) {
  UNDONE("set_aabb other proved", PICKS, chavrupas_boxes_set_aabb(BOXES, picked[k], 1, other[k][0], other[k][1], other[k][2], other[k][3]));
}
#else
static void proved_frame(Slice to) { (void)to; }
static void proved_boxes(void) {}
#endif

/* The map with the checks and without; then what it is, for the other side. */
static void map_calls(const char *label, const char *bare) {
  COUNT(label, 1, encoder_fill_map(MAP));
  COUNT(bare, 1, encoder_fill_map_bare(MAP));
  unsigned long sum = 0;
  for (unsigned k = 0; k < 3600; k++) sum += (k + 1) * bytes[k];
  printf("map 1 %lu\n", sum);
}

static void point_calls(void) {
  COUNT("get", PICKS, points_get(POINTS, PICK, 1));
  UNDONE("set_position", PICKS, set_position(PICK));
  UNDONE("set_position bare", PICKS, set_position_bare(PICK));
  UNDONE("remove", PICKS, points_remove(POINTS, PICK, 1, TRACKER(PICK)));
  UNDONE("remove bare", PICKS, points_remove_bare(POINTS, PICK, 1, TRACKER(PICK)));
  for (unsigned k = 0; k < PICKS; k++) must(points_remove_maintain(POINTS, PICK, 1, TRACKER(PICK)) == 0, "remove_maintain");
  UNDONE("insert", PICKS, points_insert(POINTS, frames[0][PICK][0], frames[0][PICK][1], k, TRACKER(PICK)));
  for (unsigned k = 0; k < PICKS; k++) must(points_remove_maintain(POINTS, PICK, 1, TRACKER(PICK)) == 0, "remove_maintain");
  UNDONE("insert bare", PICKS, points_insert_bare(POINTS, frames[0][PICK][0], frames[0][PICK][1], k, TRACKER(PICK)));
  COUNT("query_around 60", PICKS, around(centres[k], 60));
  COUNT("query_around 60 bare", PICKS, around_bare(centres[k], 60));
  COUNT("nearest 60", PICKS, nearest(centres[k], 60));
  COUNT("nearest 60 bare", PICKS, nearest_bare(centres[k], 60));
  COUNT("query_around 150", PICKS, around(centres[k], 150));
  COUNT("query_around 150 bare", PICKS, around_bare(centres[k], 150));
  map_calls("fill_map", "fill_map bare");
}

/* Each frame's batch, maintain, circles and map from the same tables, with the checks and without. */
static void point_frames(void) {
  for (unsigned f = 1; f <= FRAMES; f++) {
    Slice to = {frames[f], n};
    kept = t;
    proved_frame(to);
    COUNT("batch", 1, points_batch(POINTS, LENT(kinds_), LENT(handles_), LENT(to), LENT(found_)));
    UNDONE("maintain", 1, points_maintain(POINTS));
    COUNT("batch bare", 1, points_batch_bare(POINTS, LENT(kinds_), LENT(handles_), LENT(to), LENT(found_)));
    COUNT("check pending", 1, point_tables_check(POINTS));
    COUNT("maintain bare", 1, points_maintain_bare(POINTS));
    COUNT("circles", PICKS, around(centres[k], 60));
    COUNT("circles bare", PICKS, around_bare(centres[k], 60));
    map_calls("frame map", "frame map bare");
  }
}

static void points(FILE *f) {
  uint32_t head[2];
  get(f, head, 4, 2);
  must(head[1] == FRAMES && head[0] <= MOST, "other data");
  lend(head[0], head[0]);
  for (unsigned i = 0; i <= FRAMES; i++) get(f, frames[i], sizeof(Spot), n);
  get(f, centres, sizeof(Spot), PICKS), get(f, boxes, sizeof(Box), 256);
  must(points_new(POINTS, 16) == 0, "new");
  for (unsigned i = 0; i < n; i++) {
    must(points_insert_bare(POINTS, frames[0][i][0], frames[0][i][1], i, TRACKER(i)) == 0, "insert");
    handles[i][0] = i, handles[i][1] = 1, handles[i][2] = TRACKER(i);
  }
  must(boxes_new(MAP_BOXES, 16) == 0, "new");
  for (unsigned i = 0; i < 256; i++) must(boxes_insert_bare(MAP_BOXES, OF(boxes[i]), i) == 0, "insert");
  must(b.map[1] == ENTRIES, "the boxes do not fill the pool");
  for (unsigned k = 0; k < PICKS; k++) circles[k][0] = centres[k][0], circles[k][1] = centres[k][1], circles[k][2] = 60;
  start();
  COUNT("check", 1, point_tables_check(POINTS));
  printf("cells 1 %lu\n", t.map[2]);
  point_calls();
  point_frames();
}

static void box_calls(FILE *f) {
  uint32_t count;
  get(f, &count, 4, 1);
  get(f, boxes, sizeof(Box), count), get(f, same, sizeof(Box), PICKS), get(f, other, sizeof(Box), PICKS), get(f, asked, sizeof(Box), PICKS);
  get(f, picked, 4, PICKS);
  lend(256, ENTRIES);
  must(boxes_new(BOXES, 16) == 0, "new");
  for (unsigned i = 0; i < count; i++) must(boxes_insert_bare(BOXES, OF(boxes[i]), i) == 0, "insert");
  start();
  COUNT("check", 1, box_tables_check(BOXES));
  printf("entries 1 %lu\n", t.map[1]);
  UNDONE("set_aabb same", PICKS, boxes_set_aabb(BOXES, picked[k], 1, OF(same[k])));
  UNDONE("set_aabb same bare", PICKS, boxes_set_aabb_bare(BOXES, picked[k], 1, OF(same[k])));
  UNDONE("set_aabb other", PICKS, boxes_set_aabb(BOXES, picked[k], 1, OF(other[k])));
  UNDONE("set_aabb other bare", PICKS, boxes_set_aabb_bare(BOXES, picked[k], 1, OF(other[k])));
  proved_boxes();
  COUNT("query", PICKS, boxes_query(BOXES, OF(asked[k]), LENT(found_), LENT(found_boxes_), LENT(objs_)));
  COUNT("query bare", PICKS, boxes_query_bare(BOXES, OF(asked[k]), LENT(found_), LENT(found_boxes_), LENT(objs_)));
  /* One box is out at a time, so that the pool is as full as it can be. */
  for (unsigned i = 0; i < PICKS; i++) {
    uint32_t s = picked[i];
    UNDONE("remove", 1, boxes_remove(BOXES, s, 1));
    COUNT("remove bare", 1, boxes_remove_bare(BOXES, s, 1));
    UNDONE("insert", 1, boxes_insert(BOXES, OF(boxes[s]), s));
    must(boxes_remove(BOXES, s, 1) == 0, "remove");
    UNDONE("insert bare", 1, boxes_insert_bare(BOXES, OF(boxes[s]), s));
  }
}

int main(int count, char **words) {
  FILE *f = count == 2 ? fopen(words[1], "rb") : NULL;
  must(f != NULL, "usage: port DATA");
  const char *name = strrchr(words[1], '/');
  if (strncmp(name ? name + 1 : words[1], "boxes-", 6) == 0)
    box_calls(f);
  else
    points(f);
  return 0;
}
