static inline int64_t affc_min(int64_t a, int64_t b) { return a < b ? a : b; }
static inline int64_t affc_max(int64_t a, int64_t b) { return a > b ? a : b; }
static inline int64_t affc_floord(int64_t a, int64_t b) { return a / b - (a % b < 0); }
static inline int64_t affc_ceild(int64_t a, int64_t b) { return a / b + (a % b > 0); }
static inline int64_t affc_mod(int64_t a, int64_t b) { return a % b + (a % b < 0 ? b : 0); }
