#ifndef LRU_BENCH_PROCESSOR_TIME_HPP
#define LRU_BENCH_PROCESSOR_TIME_HPP

#include <time.h>

namespace bench {

// Seconds of processor time of this process, as the machine may be busy with other work.
inline double ProcessorTime() {
  timespec now;
  clock_gettime(CLOCK_PROCESS_CPUTIME_ID, &now);
  return static_cast<double>(now.tv_sec) + static_cast<double>(now.tv_nsec) * 1e-9;
}

}  // namespace bench

#endif
