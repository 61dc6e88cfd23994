// Eraser's lockset race detector for C++17: eraser_detector.h says what each call means.
//
//   eraser::session session;                    starts the detector that all calls below report to, until it ends
//   eraser::lock_guard guard(mutex);            locks a std::mutex, or any type with lock and unlock, and reports it
//   eraser::shared_lock_guard guard(mutex);     the same with lock_shared and unlock_shared, of a std::shared_mutex
//   eraser::write(counter)++;                   reports an access, and gives the object
//   int now = eraser::read(counter);
//
// Without a session they report nothing, and lock all the same. With std::unique_lock, a try of a lock or a condition variable a program calls eraser_locked
// and eraser_unlocking itself.
#ifndef ERASER_DETECTOR_HPP
#define ERASER_DETECTOR_HPP

#include "eraser_detector.h"

#include <atomic>
#include <cerrno>
#include <functional>
#include <memory>
#include <system_error>
#include <utility>

namespace eraser {

using race = ::eraser_race;

namespace detail {
inline std::atomic<eraser_detector *> running{nullptr};
}

// The detector of the session, null without one. The calls of eraser_detector.h take it.
inline eraser_detector *running() noexcept
{
    return detail::running.load(std::memory_order_acquire);
}

// A detector from its construction to its destruction. One at a time. When it ends, the threads that used it have ended.
class session {
public:
    // `on_race` is called for each race, in the thread that made the access. It throws nothing. Without one, each race is a line on standard error.
    explicit session(std::function<void(const race &)> on_race = {}, eraser_options options = {}) : on_race_(std::make_unique<function>(std::move(on_race)))
    {
        if (*on_race_) {
            options.on_race = [](void *context, const race *found) { (*static_cast<function *>(context))(*found); };
            options.context = on_race_.get();
        }
        detector_ = eraser_start(&options);
        if (!detector_)
            throw std::system_error(errno, std::generic_category(), "eraser_start");
        eraser_detector *none = nullptr;
        if (!detail::running.compare_exchange_strong(none, detector_)) {
            eraser_stop(detector_);
            throw std::system_error(EBUSY, std::generic_category(), "eraser::session");
        }
    }

    ~session()
    {
        detail::running.store(nullptr, std::memory_order_release);
        eraser_stop(detector_);
    }

    session(const session &) = delete;
    session &operator=(const session &) = delete;

private:
    using function = std::function<void(const race &)>;
    std::unique_ptr<function> on_race_;
    eraser_detector *detector_;
};

// Holds a lock to write. It stands where std::lock_guard would.
template <class Mutex> class lock_guard {
public:
    explicit lock_guard(Mutex &mutex) : mutex_(mutex)
    {
        mutex_.lock();
        if (eraser_detector *detector = running())
            eraser_locked(detector, &mutex_, true);
    }

    ~lock_guard()
    {
        if (eraser_detector *detector = running())
            eraser_unlocking(detector, &mutex_);
        mutex_.unlock();
    }

    lock_guard(const lock_guard &) = delete;
    lock_guard &operator=(const lock_guard &) = delete;

private:
    Mutex &mutex_;
};

// Holds a lock to read. It stands where std::shared_lock would.
template <class SharedMutex> class shared_lock_guard {
public:
    explicit shared_lock_guard(SharedMutex &mutex) : mutex_(mutex)
    {
        mutex_.lock_shared();
        if (eraser_detector *detector = running())
            eraser_locked(detector, &mutex_, false);
    }

    ~shared_lock_guard()
    {
        if (eraser_detector *detector = running())
            eraser_unlocking(detector, &mutex_);
        mutex_.unlock_shared();
    }

    shared_lock_guard(const shared_lock_guard &) = delete;
    shared_lock_guard &operator=(const shared_lock_guard &) = delete;

private:
    SharedMutex &mutex_;
};

#if defined(__GNUC__)
#define ERASER_INLINE __attribute__((always_inline)) inline // so that a race's site is the caller
#else
#define ERASER_INLINE inline
#endif

// The object's own bytes: not those that it points to.
template <class T> ERASER_INLINE const T &read(const T &object) noexcept
{
    if (eraser_detector *detector = running())
        eraser_read(detector, std::addressof(object), sizeof object);
    return object;
}

template <class T> ERASER_INLINE T &write(T &object) noexcept
{
    if (eraser_detector *detector = running())
        eraser_write(detector, std::addressof(object), sizeof object);
    return object;
}

// Before an object's memory is something else, or the object is handed to a thread that goes on without a lock.
template <class T> ERASER_INLINE void freeing(const T &object) noexcept
{
    if (eraser_detector *detector = running())
        eraser_freeing(detector, std::addressof(object), sizeof object);
}

#undef ERASER_INLINE

} // namespace eraser

#endif
