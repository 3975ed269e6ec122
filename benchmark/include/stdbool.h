#ifndef BENCHMARK_STDBOOL_H
#define BENCHMARK_STDBOOL_H
#define bool _Bool
#define true 1
#define false 0
#endif
