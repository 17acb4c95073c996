/* Containers of C++17 over heaps of rlsf.hpp: they agree with those over the system's memory, refusals throw, and nothing is left. */
#include "rlsf.hpp"
#include <cstdint>
#include <cstdio>
#include <cstdlib>
#include <list>
#include <map>
#include <memory>
#include <random>
#include <string>
#include <unordered_map>
#include <vector>

#define WANT(condition) ((condition) ? (void)0 : (std::fprintf(stderr, "%s:%d: not %s\n", __FILE__, __LINE__, #condition), std::exit(1)))

struct alignas(64) Wide {
    unsigned char bytes[96];
};

static rlsf_large_handle handle;
alignas(32) static unsigned char memory[1 << 24];

/* A heap over all the memory, of which each byte is free again at its end. */
struct Heap {
    rlsf_heap *heap;
    explicit Heap(std::size_t kind, std::size_t len = sizeof memory) : heap(rlsf_heap_init(&handle, kind, memory, len)) { WANT(heap); }
    ~Heap() { rlsf_heap_end(heap); }
};

static std::size_t lies_at(const void *payload) { return reinterpret_cast<std::uintptr_t>(payload); }

template <class Exception, class Call> static bool throws(Call call) {
    try {
        call();
    } catch (const Exception &) {
        return true;
    }
    return false;
}

static void resources(std::size_t kind, unsigned seed) {
    Heap over(kind);
    rlsf::memory_resource resource(over.heap), same(over.heap);
    WANT(resource == same && !(resource == *std::pmr::new_delete_resource()));
    void *first = resource.allocate(100000, 32);
    resource.deallocate(first, 100000, 32);
    {
        std::mt19937 draw(seed);
        std::pmr::map<int, std::pmr::string> texts(&resource);
        std::pmr::unordered_map<int, std::pmr::vector<int>> lists(&resource);
        std::map<int, std::string> texts_elsewhere;
        std::map<int, std::vector<int>> lists_elsewhere;
        std::pmr::vector<Wide> wide(&resource);
        for (int i = 0; i < 100000; i++) {
            int key = static_cast<int>(draw() % 300);
            if (draw() % 20 == 0) {
                texts.erase(key), texts_elsewhere.erase(key), lists.erase(key), lists_elsewhere.erase(key);
            } else {
                texts[key] += "some text", texts_elsewhere[key] += "some text", lists[key].push_back(i), lists_elsewhere[key].push_back(i);
            }
            if (i % 5000 == 0) {
                wide.emplace_back();
                WANT(lies_at(wide.data()) % 64 == 0);
            }
        }
        WANT(texts.size() == texts_elsewhere.size() && lists.size() == lists_elsewhere.size());
        for (const auto &[key, text] : texts_elsewhere) WANT(texts.at(key) == text.c_str());
        for (const auto &[key, list] : lists_elsewhere) WANT(std::equal(list.begin(), list.end(), lists.at(key).begin(), lists.at(key).end()));
        WANT(throws<std::bad_alloc>([&] { std::pmr::vector<char> all(sizeof memory, &resource); }));
    }
    WANT(resource.allocate(100000, 32) == first);
    resource.deallocate(first, 100000, 32);
}

static void allocators(void) {
    Heap over(RLSF_LARGE);
    rlsf::allocator<int> from(over.heap);
    int *first = from.allocate(1000000);
    from.deallocate(first, 1000000);
    {
        std::vector<int, rlsf::allocator<int>> numbers(from);
        std::map<int, int, std::less<>, rlsf::allocator<std::pair<const int, int>>> map(from);
        std::list<Wide, rlsf::allocator<Wide>> list(from);
        auto shared = std::allocate_shared<std::string>(from, "shared");
        for (int i = 0; i < 10000; i++) numbers.push_back(i), map[i * 7919 % 10007] = i;
        for (int i = 0; i < 100; i++) {
            list.emplace_back();
            WANT(lies_at(&list.back()) % 64 == 0);
        }
        auto moved = std::move(numbers);
        for (int i = 0; i < 10000; i++) WANT(moved[i] == i && map.at(i * 7919 % 10007) == i);
        WANT(*shared == "shared" && rlsf::allocator<char>(from) == from && !(rlsf::allocator<char>(from) != from));
        WANT(throws<std::bad_array_new_length>([&] { (void)from.allocate(~std::size_t(0) / 4 + 1); }));
        WANT(throws<std::bad_alloc>([&] { (void)from.allocate(~std::size_t(0) / 8); }));
    }
    WANT(from.allocate(1000000) == first);
    from.deallocate(first, 1000000);
}

/* Sizes and alignments at the bounds. A heap of 64 bytes has a payload of 16. */
static void bounds(void) {
    {
        Heap over(RLSF_SMALL);
        rlsf::memory_resource resource(over.heap);
        for (std::size_t align = 1; align <= 4096; align *= 2)
            for (std::size_t bytes : {0, 1, 17, 4096, 65536}) {
                void *payload = resource.allocate(bytes, align);
                WANT(lies_at(payload) % align == 0 && rlsf_usable_size(over.heap, payload) >= bytes);
                resource.deallocate(payload, bytes, align);
            }
    }
    Heap over(RLSF_SMALL, 64);
    rlsf::memory_resource resource(over.heap);
    WANT(throws<std::bad_alloc>([&] { (void)resource.allocate(17, 1); }));
    void *payload = resource.allocate(16, 1);
    WANT(throws<std::bad_alloc>([&] { (void)resource.allocate(0, 1); }));
    resource.deallocate(payload, 16, 1);
}

int main() {
    resources(RLSF_LARGE, 1);
    resources(RLSF_SMALL, 2);
    allocators();
    bounds();
    return 0;
}
