// Splices in libstdc++'s rope, every version kept.
#include <chrono>
#include <cstddef>
#include <cstdint>
#include <ext/rope>
#include <vector>

using __gnu_cxx::crope;

// Replaces as many bytes as `stamp` has by it at each place, each time in the newest version, and copies the last version
// to `out`. Returns the nanoseconds that the splices took; neither the making of the first version nor the freeing of any
// is counted.
extern "C" uint64_t crope_splices(const char *text, size_t text_len, const char *stamp, size_t stamp_len,
                                  const size_t *places, size_t places_len, char *out) {
    using clock = std::chrono::steady_clock;
    const crope piece(stamp, stamp_len);
    std::vector<crope> versions;
    versions.reserve(places_len + 1);
    versions.emplace_back(text, text_len);
    const auto start = clock::now();
    for (size_t i = 0; i < places_len; i++) {
        versions.push_back(versions.back());
        versions.back().replace(places[i], stamp_len, piece);
    }
    const auto end = clock::now();
    versions.back().copy(out);
    return std::chrono::duration_cast<std::chrono::nanoseconds>(end - start).count();
}
