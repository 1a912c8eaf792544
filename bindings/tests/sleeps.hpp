// How often threads have gone to sleep, as Linux tells: a thread that was woken goes to sleep
// again.
#ifndef LRU_TESTS_SLEEPS_HPP
#define LRU_TESTS_SLEEPS_HPP

#include <unistd.h>

#include <chrono>
#include <cstddef>
#include <fstream>
#include <mutex>
#include <string>
#include <string_view>
#include <thread>
#include <vector>

class Sleepers {
 public:
  // Adds the calling thread.
  void add_this_thread() {
    char path[64];
    const ssize_t length = readlink("/proc/thread-self", path, sizeof path);
    const std::lock_guard<std::mutex> guard(lock_);
    folders_.push_back("/proc/" +
                       std::string(path, static_cast<std::size_t>(length > 0 ? length : 0)));
  }

  // How often these threads have gone to sleep, once all of them sleep.
  long sleeps() {
    const std::lock_guard<std::mutex> guard(lock_);
    long sum = 0;
    for (const std::string& folder : folders_) sum += sleeps_of(folder);
    return sum;
  }

 private:
  static long sleeps_of(const std::string& folder) {
    while (true) {
      std::ifstream status(folder + "/status");
      bool is_asleep = false;
      for (std::string line; std::getline(status, line);) {
        if (line.rfind("State:", 0) == 0) is_asleep = line.find('S', 6) != std::string::npos;
        const std::string_view count = "voluntary_ctxt_switches:";
        if (is_asleep && line.rfind(count, 0) == 0) return std::stol(line.substr(count.size()));
      }
      std::this_thread::sleep_for(std::chrono::milliseconds(1));
    }
  }

  std::mutex lock_;
  std::vector<std::string> folders_;  // in which Linux tells about the threads
};

#endif
