/* Does with isl what `affc fold` does: last writes, whether a schedule turns a dependence round, which elements of each temporary are
   live together, and the least moduli along bases. beside_isl.py writes its input and runs it:

     P context                     a set of parameters
     D, S, T, W, R                 domain, order of the source, target order, writes and reads, as unions
     A name                        a temporary: the set of its elements
     B                             a basis of it
     F row                         the row's value at the second element of a pair less that at the first

   It prints the moduli, basis by basis, and then the processor time in microseconds without that for reading.

   cc -O2 -o fold_isl fold_isl.c -lisl */
#define _POSIX_C_SOURCE 199309L
#include <isl/ctx.h>
#include <isl/flow.h>
#include <isl/ilp.h>
#include <isl/map.h>
#include <isl/set.h>
#include <isl/space.h>
#include <isl/union_map.h>
#include <isl/union_set.h>
#include <isl/val.h>
#include <stdio.h>
#include <stdlib.h>
#include <string.h>
#include <time.h>

enum { MOST_TEXT = 1 << 20, MOST_ARRAYS = 64, MOST_BASES = 8, MOST_ROWS = 4 };

struct array {
  isl_set *elements;
  int bases, rows[MOST_BASES];
  isl_map *row[MOST_BASES][MOST_ROWS];
  isl_val *modulus[MOST_BASES][MOST_ROWS];
};

struct program {
  isl_set *context;
  isl_union_set *domain;
  isl_union_map *source, *target, *writes, *reads;
  struct array array[MOST_ARRAYS];
  int arrays, illegal;
};

static char text[MOST_TEXT];

static void read_program(isl_ctx *ctx, struct program *p) {
  while (fgets(text, MOST_TEXT, stdin)) {
    const char *rest = text + 2;
    struct array *a = p->array + p->arrays - 1;
    switch (text[0]) {
    case 'P': p->context = isl_set_read_from_str(ctx, rest); break;
    case 'D': p->domain = isl_union_set_read_from_str(ctx, rest); break;
    case 'S': p->source = isl_union_map_read_from_str(ctx, rest); break;
    case 'T': p->target = isl_union_map_read_from_str(ctx, rest); break;
    case 'W': p->writes = isl_union_map_read_from_str(ctx, rest); break;
    case 'R': p->reads = isl_union_map_read_from_str(ctx, rest); break;
    case 'A': p->array[p->arrays++].elements = isl_set_read_from_str(ctx, rest); break;
    case 'B': a->bases++; break;
    case 'F': a->row[a->bases - 1][a->rows[a->bases - 1]++] = isl_map_read_from_str(ctx, rest); break;
    }
  }
}

/* Each map over the instances of the domain at parameters of the context. */
static isl_union_map *within(struct program *p, isl_union_map *map) {
  map = isl_union_map_intersect_domain(map, isl_union_set_copy(p->domain));
  return isl_union_map_intersect_params(map, isl_set_copy(p->context));
}

/* The instances that store what an instance loads, the last ones before it. */
static isl_union_map *last_writes(struct program *p) {
  isl_union_access_info *info = isl_union_access_info_from_sink(isl_union_map_copy(p->reads));
  info = isl_union_access_info_set_must_source(info, isl_union_map_copy(p->writes));
  info = isl_union_access_info_set_schedule_map(info, isl_union_map_copy(p->source));
  isl_union_flow *flow = isl_union_access_info_compute_flow(info);
  isl_union_map *last = isl_union_flow_get_must_dependence(flow);
  isl_union_flow_free(flow);
  return last;
}

/* Whether some dependence is turned round. */
static int turns_one_round(struct program *p) {
  isl_union_map *to_readers = isl_union_map_reverse(isl_union_map_copy(p->reads));
  isl_union_map *to_writers = isl_union_map_reverse(isl_union_map_copy(p->writes));
  isl_union_map *all = isl_union_map_apply_range(isl_union_map_copy(p->writes), isl_union_map_union(to_readers, isl_union_map_copy(to_writers)));
  all = isl_union_map_union(all, isl_union_map_apply_range(isl_union_map_copy(p->reads), to_writers));
  all = isl_union_map_intersect(all, isl_union_map_lex_lt_union_map(isl_union_map_copy(p->source), isl_union_map_copy(p->source)));
  all = isl_union_map_intersect(all, isl_union_map_lex_ge_union_map(isl_union_map_copy(p->target), isl_union_map_copy(p->target)));
  int empty = isl_union_map_is_empty(all);
  isl_union_map_free(all);
  return !empty;
}

/* The pairs of elements of a temporary of which the second is stored while the first is live, and their opposites. */
static isl_map *live_pairs(struct program *p, struct array *a, isl_union_map *last, isl_union_map *before) {
  isl_union_map *stores = isl_union_map_intersect_range(isl_union_map_copy(p->writes), isl_union_set_from_set(isl_set_copy(a->elements)));
  isl_union_set *writers = isl_union_map_domain(isl_union_map_copy(stores));
  isl_union_map *own = isl_union_map_intersect_domain(isl_union_map_copy(last), isl_union_set_copy(writers));
  isl_union_map *between = isl_union_map_apply_range(own, isl_union_map_reverse(isl_union_map_copy(before)));
  between = isl_union_map_intersect(between, isl_union_map_copy(before));
  between = isl_union_map_intersect_range(between, writers);
  isl_union_map *from = isl_union_map_reverse(isl_union_map_copy(stores));
  isl_union_map *pairs = isl_union_map_apply_range(from, isl_union_map_apply_range(between, stores));
  isl_space *space = isl_space_map_from_set(isl_set_get_space(a->elements));
  pairs = isl_union_map_coalesce(pairs);
  isl_map *map = isl_union_map_extract_map(pairs, isl_space_align_params(space, isl_union_map_get_space(pairs)));
  isl_union_map_free(pairs);
  map = isl_map_subtract(map, isl_map_identity(isl_space_map_from_set(isl_set_get_space(a->elements))));
  return isl_map_coalesce(isl_map_union(map, isl_map_reverse(isl_map_copy(map))));
}

/* The least modulus of each row in turn: the greatest distance, and one more, of the pairs that those before leave together. */
static void find_moduli(struct array *a, isl_map *pairs) {
  for (int b = 0; b < a->bases; b++) {
    isl_set *left = isl_map_wrap(isl_map_copy(pairs));
    for (int k = 0; k < a->rows[b]; k++) {
      isl_set *far = isl_set_apply(isl_set_copy(left), isl_map_copy(a->row[b][k]));
      a->modulus[b][k] = isl_set_is_empty(far) ? NULL : isl_set_dim_max_val(isl_set_copy(far), 0);
      isl_set_free(far);
      left = isl_set_intersect(left, isl_map_domain(isl_map_fix_si(isl_map_copy(a->row[b][k]), isl_dim_out, 0, 0)));
    }
    isl_set_free(left);
  }
  isl_map_free(pairs);
}

void work(struct program *p) {
  p->source = within(p, p->source);
  p->target = within(p, p->target);
  p->writes = within(p, p->writes);
  p->reads = within(p, p->reads);
  isl_union_map *last = last_writes(p);
  p->illegal = turns_one_round(p);
  isl_union_map *before = isl_union_map_lex_lt_union_map(isl_union_map_copy(p->target), isl_union_map_copy(p->target));
  for (int i = 0; i < p->arrays; i++) find_moduli(p->array + i, live_pairs(p, p->array + i, last, before));
  isl_union_map_free(last);
  isl_union_map_free(before);
}

static double now(void) {
  struct timespec t;
  clock_gettime(CLOCK_PROCESS_CPUTIME_ID, &t);
  return t.tv_sec * 1e6 + t.tv_nsec / 1e3;
}

int main(void) {
  static struct program p;
  read_program(isl_ctx_alloc(), &p);
  double begun = now();
  work(&p);
  double spent = now() - begun;
  printf("%s\n", p.illegal ? "illegal" : "legal");
  for (int i = 0; i < p.arrays; i++)
    for (int b = 0; b < p.array[i].bases; b++) {
      printf("%s", isl_set_get_tuple_name(p.array[i].elements));
      for (int k = 0; k < p.array[i].rows[b]; k++) printf(" %ld", p.array[i].modulus[b][k] ? isl_val_get_num_si(p.array[i].modulus[b][k]) + 1 : 1);
      printf("\n");
    }
  printf("%.0f us\n", spent);
}
