/* Decides the systems of a file with isl, and prints each answer with the microseconds to make the set, to ask whether it is empty and
   to find its least point, and then the totals.

   cc -O2 -o decide_isl decide_isl.c -lisl && ./decide_isl < systems.txt */
#define _POSIX_C_SOURCE 199309L
#include <isl/ctx.h>
#include <isl/mat.h>
#include <isl/point.h>
#include <isl/set.h>
#include <isl/space.h>
#include <isl/val.h>
#include <stdio.h>
#include <stdlib.h>
#include <string.h>
#include <time.h>

enum { MOST_COLUMNS = 128, MOST_ROWS = 1024, MOST_TEXT = 65536 };

struct block {
  int columns, rows, read;
  long long ends[2 * MOST_COLUMNS];
  long long row[MOST_ROWS][MOST_COLUMNS + 1];
};

static struct block block;

static double now(void) {
  struct timespec t;
  clock_gettime(CLOCK_MONOTONIC, &t);
  return t.tv_sec * 1e6 + t.tv_nsec / 1e3;
}

/* Reads whole numbers, and says how many there were. */
static int numbers(const char *text, long long *into, int most) {
  int count = 0;
  char *end;
  while (count < most) {
    long long n = strtoll(text, &end, 10);
    if (end == text) break;
    into[count++] = n;
    text = end;
  }
  return count;
}

static __isl_give isl_mat *with_entry(__isl_take isl_mat *rows, int i, int j, long long n) {
  return isl_mat_set_element_val(rows, i, j, isl_val_int_from_si(isl_mat_get_ctx(rows), n));
}

/* The rows of the system and of its box, each with its constant first. */
static __isl_give isl_basic_set *set_of(isl_ctx *ctx, const struct block *b) {
  int width = b->columns + 1;
  isl_mat *rows = isl_mat_alloc(ctx, b->read + 2 * b->columns, width);
  for (int i = 0; i < b->read + 2 * b->columns; i++)
    for (int j = 0; j < width; j++) {
      int box = i - b->read;
      long long n;
      if (box < 0)
        n = b->row[i][(j + b->columns) % width];
      else if (j == 0)
        n = box % 2 ? b->ends[box] : -b->ends[box];
      else
        n = j - 1 != box / 2 ? 0 : box % 2 ? -1 : 1;
      rows = with_entry(rows, i, j, n);
    }
  return isl_basic_set_from_constraint_matrices(isl_space_set_alloc(ctx, 0, b->columns), isl_mat_alloc(ctx, 0, width), rows,
                                                isl_dim_cst, isl_dim_param, isl_dim_set, isl_dim_div);
}

/* Whether the least point is the one that is expected, which is then printed. */
static int same_point(__isl_keep isl_set *least, int columns, const char *expected) {
  long long wanted[MOST_COLUMNS];
  int count = numbers(expected, wanted, MOST_COLUMNS), same = count == columns;
  isl_point *point = isl_set_sample_point(isl_set_copy(least));
  printf("point");
  for (int j = 0; j < columns; j++) {
    isl_val *x = isl_point_get_coordinate_val(point, isl_dim_set, j);
    long n = isl_val_get_num_si(x);
    printf(" %ld", n);
    if (same && n != wanted[j]) same = 0;
    isl_val_free(x);
  }
  isl_point_free(point);
  return same;
}

int main(void) {
  static char line[MOST_TEXT];
  isl_ctx *ctx = isl_ctx_alloc();
  double made_time = 0, empty_time = 0, least_time = 0, longest = 0;
  int empty = 0, points = 0, wrong = 0;
  while (fgets(line, sizeof line, stdin)) {
    if (sscanf(line, "system %*s columns %d rows %d", &block.columns, &block.rows) == 2) {
      block.read = 0;
    } else if (!strncmp(line, "ranges", 6)) {
      numbers(line + 6, block.ends, 2 * block.columns);
    } else if (!strncmp(line, "expect", 6)) {
      double start = now();
      isl_basic_set *set = set_of(ctx, &block);
      double made = now();
      isl_bool is_empty = isl_basic_set_is_empty(set);
      double asked = now();
      isl_basic_set *again = set_of(ctx, &block);
      double remade = now();
      isl_set *least = isl_basic_set_lexmin(again);
      int none = isl_set_is_empty(least);
      double end = now();
      made_time += made - start;
      empty_time += asked - made;
      least_time += end - remade;
      if (end - remade > longest) longest = end - remade;
      if (none) {
        printf("empty");
        empty++;
        wrong += strncmp(line, "expect empty", 12) != 0 || !is_empty;
      } else {
        points++;
        wrong += !same_point(least, block.columns, line + 12) || is_empty;
      }
      printf(" %.1f %.1f %.1f\n", made - start, asked - made, end - remade);
      isl_set_free(least);
      isl_basic_set_free(set);
    } else if (block.read < block.rows && numbers(line, block.row[block.read], block.columns + 1) == block.columns + 1) {
      block.read++;
    }
  }
  printf("%d empty, %d points, %d not as expected; us to make the sets %.0f, whether empty %.0f, least point %.0f, longest %.1f\n",
         empty, points, wrong, made_time, empty_time, least_time, longest);
  isl_ctx_free(ctx);
  return 0;
}
