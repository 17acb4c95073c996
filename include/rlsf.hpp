/* The heaps of rlsf.h for C++17: a std::pmr::memory_resource, and an allocator of containers. The archive is librlsf_malloc.a.
 *
 * Both use a heap of the program's, which ends after all that was allocated from it. A program without threads needs no lock. Threads that
 * share a heap hold a lock in each call that may allocate or deallocate. */
#ifndef RLSF_HPP
#define RLSF_HPP

#include "rlsf.h"
#include <cstddef>
#include <limits>
#include <memory_resource>
#include <new>

namespace rlsf {

/* Allocates `bytes` bytes at a multiple of `align`, a power of two. Throws std::bad_alloc exactly if rlsf_aligned_alloc returns NULL. */
inline void *allocate(rlsf_heap *heap, std::size_t bytes, std::size_t align) {
    void *payload = align <= 16 ? rlsf_malloc(heap, bytes) : rlsf_aligned_alloc(heap, align, bytes);
    if (!payload) throw std::bad_alloc();
    return payload;
}

/* A memory resource over a heap. `allocate` throws std::bad_alloc if the heap has no room, and `deallocate` throws nothing. Two resources are
 * equal if they are over one heap. */
class memory_resource final : public std::pmr::memory_resource {
    rlsf_heap *heap_;

    void *do_allocate(std::size_t bytes, std::size_t align) override { return rlsf::allocate(heap_, bytes, align); }
    void do_deallocate(void *payload, std::size_t, std::size_t) override { rlsf_free(heap_, payload); }
    bool do_is_equal(const std::pmr::memory_resource &other) const noexcept override {
        const memory_resource *same = dynamic_cast<const memory_resource *>(&other);
        return same && same->heap_ == heap_;
    }

public:
    explicit memory_resource(rlsf_heap *heap) noexcept : heap_(heap) {}
    rlsf_heap *heap() const noexcept { return heap_; }
};

/* An allocator of containers over a heap, for a `T` of any alignment. Copies are over the same heap. `allocate` throws std::bad_array_new_length
 * if the bytes of `count` values are no size_t, and std::bad_alloc if the heap has no room. No other call throws. */
template <class T> class allocator {
    template <class U> friend class allocator;
    rlsf_heap *heap_;

public:
    using value_type = T;
    explicit allocator(rlsf_heap *heap) noexcept : heap_(heap) {}
    template <class U> allocator(const allocator<U> &other) noexcept : heap_(other.heap_) {}
    rlsf_heap *heap() const noexcept { return heap_; }
    T *allocate(std::size_t count) {
        if (count > std::numeric_limits<std::size_t>::max() / sizeof(T)) throw std::bad_array_new_length();
        return static_cast<T *>(rlsf::allocate(heap_, count * sizeof(T), alignof(T)));
    }
    void deallocate(T *payload, std::size_t) noexcept { rlsf_free(heap_, payload); }
    template <class U> bool operator==(const allocator<U> &other) const noexcept { return heap_ == other.heap_; }
    template <class U> bool operator!=(const allocator<U> &other) const noexcept { return heap_ != other.heap_; }
};

} // namespace rlsf

#endif
