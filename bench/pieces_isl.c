/* Counts the pieces in which isl gives the last writes that loads read. leaves.py writes its input, the lines P, D, S, W and R of
   fold_isl.c with the reads of one load, and runs it.

   cc -O2 -o pieces_isl pieces_isl.c -lisl */
#include <isl/ctx.h>
#include <isl/flow.h>
#include <isl/map.h>
#include <isl/set.h>
#include <isl/union_map.h>
#include <isl/union_set.h>
#include <stdio.h>

enum { MOST_TEXT = 1 << 20 };

static char text[MOST_TEXT];

static isl_stat count_pieces(isl_map *map, void *user) {
  int *count = user;
  map = isl_map_coalesce(map);
  *count += isl_map_n_basic_map(map);
  isl_map_free(map);
  return isl_stat_ok;
}

int main(void) {
  isl_ctx *ctx = isl_ctx_alloc();
  isl_set *context = NULL;
  isl_union_set *domain = NULL;
  isl_union_map *maps[3] = {NULL, NULL, NULL};
  while (fgets(text, MOST_TEXT, stdin)) {
    const char *rest = text + 2;
    switch (text[0]) {
    case 'P': context = isl_set_read_from_str(ctx, rest); break;
    case 'D': domain = isl_union_set_read_from_str(ctx, rest); break;
    case 'S': maps[0] = isl_union_map_read_from_str(ctx, rest); break;
    case 'W': maps[1] = isl_union_map_read_from_str(ctx, rest); break;
    case 'R': maps[2] = isl_union_map_read_from_str(ctx, rest); break;
    }
  }
  for (int i = 0; i < 3; i++) {
    maps[i] = isl_union_map_intersect_domain(maps[i], isl_union_set_copy(domain));
    maps[i] = isl_union_map_intersect_params(maps[i], isl_set_copy(context));
  }
  isl_union_access_info *info = isl_union_access_info_from_sink(maps[2]);
  info = isl_union_access_info_set_must_source(info, maps[1]);
  info = isl_union_access_info_set_schedule_map(info, maps[0]);
  isl_union_flow *flow = isl_union_access_info_compute_flow(info);
  isl_union_map *last = isl_union_map_coalesce(isl_union_flow_get_must_dependence(flow));
  int count = 0;
  isl_union_map_foreach_map(last, count_pieces, &count);
  printf("%d\n", count);
  isl_union_map_free(last);
  isl_union_flow_free(flow);
  isl_set_free(context);
  isl_union_set_free(domain);
  isl_ctx_free(ctx);
  return 0;
}
