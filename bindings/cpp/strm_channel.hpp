/*
 * strm_channel.hpp: a channel between threads for C++17 and later, over strm_mt.h. Tested, not proved. Link -lstrm_mt -lstrm -pthread.
 *
 *     strm::channel way(16, 32);
 *     way.send(strm::bytes_of("lion"));                    // waits for room
 *     std::vector<std::byte> bytes;
 *     while (way.receive(bytes) == strm::channel::done)    // waits for a message, until the channel is closed and empty
 *         use(bytes);
 *
 * Threads may call all functions at the same time, but for the destructor. Messages come in the order in which they were sent,
 * those of greater bands first. A refusal that is no status throws std::system_error.
 */
#ifndef STRM_CHANNEL_HPP
#define STRM_CHANNEL_HPP
#include <strm.hpp>
#include <strm_mt.h>

#include <cerrno>
#include <chrono>
#include <ctime>
#include <limits>

namespace strm {

class channel {
public:
    enum status { done, timed_out, closed };

    /*
     * A channel has room for `count` messages of at most `size` bytes. If `hiwat` is not 0, a band is full that has so many bytes,
     * so that messages of other bands still have room.
     */
    channel(uint32_t size, uint32_t count, uint32_t hiwat = 0) : size_(size) {
        const strm_class_spec spec = { size, count };
        const strm_queue_spec queue = { hiwat != 0 ? hiwat : std::numeric_limits<uint32_t>::max(), 0, 0, STRM_NO_QUEUE };
        const strm_config config = { 1, count, &spec, 1, &queue, 1, 0, 1 };
        strm_mt* mt = nullptr;
        check(strm_mt_open(&mt, &config));
        mt_.reset(mt);
    }

    /* Sends a message in a band, once there is room. It returns `closed` if the channel is. */
    status send(bytes from, uint32_t band = 0) { return send_by(nullptr, from, band); }
    /* The same, without waiting: it returns `timed_out` if there is no room. */
    status try_send(bytes from, uint32_t band = 0) { return send_by(&never, from, band); }
    /* The same, if there is room in time. */
    template <class Time> status send_for(Time most, bytes from, uint32_t band = 0) {
        const timespec deadline = after(most);
        return send_by(&deadline, from, band);
    }

    /* Receives a message, once there is one. It returns `closed` if the channel is closed and empty. */
    status receive(std::vector<std::byte>& into) { return receive_by(nullptr, into); }
    /* The same, without waiting: it returns `timed_out` if there is none. */
    status try_receive(std::vector<std::byte>& into) { return receive_by(&never, into); }
    /* The same, if one comes in time. */
    template <class Time> status receive_for(Time most, std::vector<std::byte>& into) {
        const timespec deadline = after(most);
        return receive_by(&deadline, into);
    }

    /* Closes the channel for ever. What was sent can still be received. */
    void close() { check(strm_mt_shut(mt_.get(), STRM_NO_QUEUE)); }

    /* A descriptor for poll, which is readable while a message can be received (strm_mt_fd). */
    int readable() {
        int fd = -1;
        check(strm_mt_fd(mt_.get(), 0, STRM_MT_READABLE, 0, &fd));
        return fd;
    }
    strm_census census() const {
        strm_census found;
        check(::strm_census_(locked(mt_.get()), &found));
        return found;
    }

private:
    static constexpr timespec never = {};

    struct closer { void operator()(strm_mt* mt) const noexcept { strm_mt_close(mt); } };
    /* The pool while its lock is held. */
    class locked {
    public:
        explicit locked(strm_mt* mt) noexcept : mt_(mt), pool_(strm_mt_lock(mt)) {}
        locked(const locked&) = delete;
        ~locked() { strm_mt_unlock(mt_); }
        operator strm_pool*() const noexcept { return pool_; }

    private:
        strm_mt* mt_;
        strm_pool* pool_;
    };

    static void check(int code) {
        if (code != STRM_OK)
            throw std::system_error(code == STRM_MT_NO_FD ? std::error_code(errno, std::generic_category())
                                                          : make_error_code(static_cast<refusal>(code)));
    }
    static status status_of(int code) {
        if (code == STRM_MT_TIMED_OUT || code == STRM_MT_CLOSED)
            return code == STRM_MT_CLOSED ? closed : timed_out;
        check(code);
        return done;
    }
    /* A deadline of CLOCK_MONOTONIC, which std::chrono calls steady_clock. More than thirty years are thirty years. */
    template <class Time> static timespec after(Time most) {
        const std::chrono::duration<double> wait = std::min<std::chrono::duration<double>>(most, std::chrono::seconds(1'000'000'000));
        const auto at = std::chrono::steady_clock::now().time_since_epoch() + std::chrono::duration_cast<std::chrono::nanoseconds>(wait);
        const auto seconds = std::chrono::floor<std::chrono::seconds>(at);
        return { static_cast<time_t>(seconds.count()), static_cast<long>((at - seconds).count()) };
    }
    status send_by(const timespec* deadline, bytes from, uint32_t band) {
        strm_msg msg;
        const size_t most = std::numeric_limits<uint32_t>::max();
        int code = strm_mt_alloc(mt_.get(), static_cast<uint32_t>(std::min(from.size(), most)), &msg, deadline);
        if (code != STRM_OK)
            return status_of(code);
        {
            const locked pool(mt_.get());
            code = strm_write(pool, msg, 0, from.data(), from.size());
            if (code == STRM_OK)
                code = strm_setband(pool, msg, band);
        }
        if (code == STRM_OK)
            code = strm_mt_send(mt_.get(), 0, msg, deadline);
        if (code != STRM_OK)
            strm_freemsg(locked(mt_.get()), msg);
        return status_of(code);
    }
    status receive_by(const timespec* deadline, std::vector<std::byte>& into) {
        strm_msg msg;
        size_t count = 0;
        into.resize(size_);
        const status what = status_of(strm_mt_receive(mt_.get(), 0, &msg, deadline));
        if (what == done) {
            const locked pool(mt_.get());
            strm_read(pool, msg, 0, into.data(), into.size(), &count);
            strm_freemsg(pool, msg);
        }
        into.resize(count);
        return what;
    }

    std::unique_ptr<strm_mt, closer> mt_;
    uint32_t size_;
};

}  // namespace strm

#endif
