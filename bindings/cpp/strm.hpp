/*
 * strm.hpp: the pools of strm.h for C++17 and later, over the same library. Tested, not proved.
 *
 *     strm::pool pool({ .mblks = 40, .classes = { { 16, 32 } }, .queues = { { .hiwat = 64, .lowat = 16 } } });
 *     strm::message msg = pool.allocb(4);
 *     msg.write(0, strm::bytes_of("lion"));
 *     pool.queue(0).put(std::move(msg));
 *
 * strm.h says what each call does and when it is refused. A function has the name of its call, or its comment names the call.
 * Structs and constants that are not here are those of strm.h.
 *
 * Each call has two forms: `msg.write(0, bytes)` throws std::system_error, and `msg.write(0, bytes, code)` sets a
 * std::error_code, to 0 if the call was done. After a refusal this second form returns an empty message, 0 or the like. With
 * -fno-exceptions it is the only one. STRM_NONE is no failure: then a function returns an empty std::optional or message.
 *
 * A message is freed when it goes out of scope, unless it was handed over or released. One that was handed over or moved from
 * is empty. A call on an empty message is refused as bad_argument, on a moved-from pool as not_open. A message may outlive its
 * pool: calls on it are then refused as not_open.
 *
 * What strm.h asks of callers stays:
 *
 *   - Functions that are `const` are looks. Any other runs alone on its pool: threads that share a pool hold a lock. To free a
 *     message is such a call, also where it goes out of scope or is assigned to. To move it into an empty one is no call.
 *   - Bytes in place (bytes, iov, blocks, queued_bytes, queued_iov, room, edit, window) are good until the next call with the
 *     pool that is no look and none of the last three, whose bytes may be written.
 *   - A queue is used only while its pool is there.
 */
#ifndef STRM_HPP
#define STRM_HPP
#include <strm.h>

#include <algorithm>
#include <array>
#include <cstddef>
#include <memory>
#include <optional>
#include <string>
#include <string_view>
#include <system_error>
#include <utility>
#include <vector>
#if __cplusplus >= 202002L && __has_include(<span>)
#include <span>
#endif
/* The last parameter of each call. */
#ifdef __cpp_exceptions
#define STRM_REPORT strm::report to = {}
#else
#define STRM_REPORT strm::report to
#endif

namespace strm {
using std::optional;

enum class refusal {
    too_large = STRM_TOO_LARGE, no_mblk = STRM_NO_MBLK, no_data = STRM_NO_DATA, ref_max = STRM_REF_MAX,
    no_such_block = STRM_NO_SUCH_BLOCK, shared = STRM_SHARED, no_room = STRM_NO_ROOM, too_short = STRM_SHORT,
    no_such_place = STRM_NO_SUCH_PLACE, bad_order = STRM_BAD_ORDER, no_such_queue = STRM_NO_SUCH_QUEUE, full = STRM_FULL,
    ids_spent = STRM_IDS_SPENT, not_pending = STRM_NOT_PENDING, bad_marks = STRM_BAD_MARKS, invalid = STRM_INVALID,
    not_open = STRM_NOT_OPEN, bad_argument = STRM_BAD_ARGUMENT, is_open = STRM_IS_OPEN, no_memory = STRM_NO_MEMORY,
    bad_mblks = STRM_BAD_MBLKS, bad_classes = STRM_BAD_CLASSES, bad_class_size = STRM_BAD_CLASS_SIZE,
    bad_class_total = STRM_BAD_CLASS_TOTAL, bad_queues = STRM_BAD_QUEUES, bad_queue_marks = STRM_BAD_QUEUE_MARKS,
    bad_next = STRM_BAD_NEXT, bad_bufcalls = STRM_BAD_BUFCALLS, bad_first_id = STRM_BAD_FIRST_ID
};

inline const std::error_category& category() noexcept {
    static const class : public std::error_category {
        const char* name() const noexcept override { return "strm"; }
        std::string message(int code) const override { return strm_error(code); }
    } it{};
    return it;
}
inline std::error_code make_error_code(refusal why) noexcept { return { static_cast<int>(why), category() }; }

/* The text that a call copies. */
template <class Call, class... Args> std::string text_by(Call call, Args... args) {
    std::string text(call(args..., nullptr, 0), '\0');
    call(args..., text.data(), text.size() + 1);
    return text;
}
/* The name of a code, as "STRM_TOO_LARGE" (strm_name), and the version of the library (strm_version). */
inline std::string name_of(refusal why) { return text_by(strm_name, static_cast<int>(why)); }
inline std::string version() { return text_by(strm_version); }

/* How a call reports a refusal: by an exception, or in a std::error_code. It is made of the call's last argument. */
class report {
public:
#ifdef __cpp_exceptions
    report() noexcept = default;
#endif
    report(std::error_code& code) noexcept : code_(&code) {}
    /* Whether a call with this code stored its results. Reports a refusal. */
    bool operator()(int code) const {
        if (code != STRM_OK)
            code_ != nullptr ? void(*code_ = error_of(code)) : STRM_FAILED(code) ? raise(code) : void();
        else if (code_ != nullptr && *code_)
            code_->clear();
        return code == STRM_OK;
    }

private:
    /* Kept out of the code of calls that are done. */
    [[gnu::cold, gnu::noinline]] static std::error_code error_of(int code) noexcept {
        return STRM_FAILED(code) ? make_error_code(static_cast<refusal>(code)) : std::error_code();
    }
    [[noreturn, gnu::cold, gnu::noinline]] static void raise([[maybe_unused]] int code) {
#ifdef __cpp_exceptions
        throw std::system_error(error_of(code));
#endif
        std::terminate();
    }
    std::error_code* code_ = nullptr;
};

/* ---- bytes */
#if defined(__cpp_lib_span)
using std::span;
#else
/* A part of std::span of C++20. */
template <class T> class span {
public:
    constexpr span() noexcept = default;
    constexpr span(T* data, size_t size) noexcept : data_(data), size_(size) {}
    template <size_t N> constexpr span(T (&array)[N]) noexcept : data_(array), size_(N) {}
    template <class C, class = std::enable_if_t<std::is_convertible_v<decltype(std::declval<C&>().data()), T*>>>
    constexpr span(C&& items) noexcept : data_(items.data()), size_(items.size()) {}
    constexpr T* data() const noexcept { return data_; }
    constexpr size_t size() const noexcept { return size_; }
    constexpr T* begin() const noexcept { return data_; }
    constexpr T* end() const noexcept { return data_ + size_; }
    constexpr T& operator[](size_t at) const { return data_[at]; }

private:
    T* data_ = nullptr;
    size_t size_ = 0;
};
#endif

using bytes = span<const std::byte>;
using buffer = span<std::byte>;
inline bytes bytes_of(std::string_view text) { return { reinterpret_cast<const std::byte*>(text.data()), text.size() }; }
inline std::string_view text_of(bytes from) { return { reinterpret_cast<const char*>(from.data()), from.size() }; }

/* ---- what a pool is opened from */
struct queue_spec {
    uint32_t hiwat = 1, lowat = 0;
    bool service = false;
    uint32_t next = STRM_NO_QUEUE;
};
struct config {
    uint32_t id = 1, mblks = 0;
    std::vector<strm_class_spec> classes = {};
    std::vector<queue_spec> queues = {};
    uint32_t bufcalls = 0, first_id = 1;
};

namespace detail {
/* A handle, which a pool and its messages share. Each call that counts users is no look, so one lock is enough for both. */
struct shared {
    strm_pool handle = STRM_POOL_INIT;
    size_t users = 1;
};
inline strm_pool* handle_of(shared* at) noexcept { return at != nullptr ? &at->handle : nullptr; }
[[gnu::cold, gnu::noinline]] inline void destroy(shared* at) noexcept { delete at; }
inline void leave(shared* at) noexcept { --at->users == 0 ? destroy(at) : void(); }

/* Has a call read a configuration. */
template <class Call, class... Args> int with_config(const config& from, Call call, Args... args) {
    std::array<strm_queue_spec, STRM_MOST_QUEUES> queues = {};
    for (size_t i = 0; i < from.queues.size() && i < queues.size(); i++)
        queues[i] = { from.queues[i].hiwat, from.queues[i].lowat, from.queues[i].service, from.queues[i].next };
    const strm_config config = { from.id, from.mblks, from.classes.data(), from.classes.size(), queues.data(),
                                 from.queues.size(), from.bufcalls, from.first_id };
    return call(&config, args...);
}

/* The result that a call stores. */
template <class T, class Call, class... Args> T stored(report to, Call call, Args... args) {
    T result{};
    to(call(args..., &result));
    return result;
}

/* The result that a call stores, or none if there is nothing to give. */
template <class T, class Call, class... Args> optional<T> found(report to, Call call, Args... args) {
    T result{};
    return to(call(args..., &result)) ? optional<T>(result) : std::nullopt;
}

/* The bytes that a call finds in place. */
template <class Byte, class Call, class... Args>
[[gnu::always_inline]] inline span<Byte> in_place(report to, Call call, Args... args) {
    std::conditional_t<std::is_const_v<Byte>, const uint8_t, uint8_t>* first;
    size_t length;
    return to(call(args..., &first, &length)) ? span<Byte>(reinterpret_cast<Byte*>(first), length) : span<Byte>();
}
}  // namespace detail

/* ---- messages; clang too inlines what programs call for each packet */
/* A block of a message, and its bytes in place. */
struct block : strm_block_info { strm::bytes bytes; };

class blocks;
class pool;

class [[nodiscard]] message {
public:
    message() noexcept = default;
    /* Whether it has a name, valid or not. */
    explicit operator bool() const noexcept { return at_ != nullptr; }
    strm_msg name() const noexcept { return at_ ? at_.get_deleter().name : strm_msg(); }
    /* Gives the name away: the message is not freed when this goes out of scope. pool::adopt takes the name back. */
    strm_msg release() noexcept { const strm_msg given = name(); return forget(), given; }
    /* strm_same_msg */
    friend bool operator==(const message& a, const message& b) noexcept { return strm_same_msg(a.name(), b.name()) == 1; }
    friend bool operator!=(const message& a, const message& b) noexcept { return !(a == b); }

    bool has(STRM_REPORT) const { return stored<uint32_t>(to, strm_has) == 1; }
    uint32_t size(STRM_REPORT) const { return stored<uint32_t>(to, strm_size); }
    uint32_t msgdsize(STRM_REPORT) const { return stored<uint32_t>(to, strm_msgdsize); }
    strm_queued info(STRM_REPORT) const { return stored<strm_queued>(to, strm_message); }  /* strm_message */
    size_t read(uint32_t at, buffer into, STRM_REPORT) const { return filled(to, strm_read, at, into); }
    strm_block_info block(uint32_t place, STRM_REPORT) const { return stored<strm_block_info>(to, strm_block, place); }
    size_t blocks(uint32_t from, span<strm_block_info> into, STRM_REPORT) const { return filled(to, strm_blocks, from, into); }
    uint32_t block_number(uint32_t place, STRM_REPORT) const { return stored<uint32_t>(to, strm_block_number, place); }
    /* All blocks with their bytes: for (auto block : msg.blocks()). Of an empty message there are none. */
    strm::blocks blocks() const noexcept;
    [[gnu::always_inline]] strm::bytes bytes(uint32_t place, STRM_REPORT) const { return in_place<const std::byte>(to, strm_bytes, place); }
    size_t iov(uint32_t from, span<strm_iov> into, STRM_REPORT) const { return filled(to, strm_iov_, from, into); }
    strm_block_place place(uint32_t place, STRM_REPORT) const { return stored<strm_block_place>(to, strm_place, place); }

    buffer room(uint32_t place, STRM_REPORT) { return in_place<std::byte>(to, strm_room, place); }
    buffer edit(uint32_t place, STRM_REPORT) { return in_place<std::byte>(to, strm_edit, place); }
    buffer window(uint32_t place, STRM_REPORT) { return in_place<std::byte>(to, strm_window, place); }
    void write(uint32_t place, strm::bytes from, STRM_REPORT) { to(call(strm_write, place, from.data(), from.size())); }
    void overwrite(uint32_t at, strm::bytes from, STRM_REPORT) { to(call(strm_overwrite, at, from.data(), from.size())); }
    void prepend(strm::bytes from, STRM_REPORT) { to(call(strm_prepend, from.data(), from.size())); }
    void reserve(uint32_t place, uint32_t count, STRM_REPORT) { to(call(strm_reserve, place, count)); }
    void advance(uint32_t place, uint32_t count, STRM_REPORT) { to(call(strm_advance, place, count)); }
    void shape(uint32_t place, uint32_t at, uint32_t length, STRM_REPORT) { to(call(strm_shape, place, at, length)); }
    void shape_all(span<const strm_block_shape> shapes, STRM_REPORT) { to(call(strm_shape_all, shapes.data(), shapes.size())); }
    void settype(uint32_t place, uint32_t type, STRM_REPORT) { to(call(strm_settype, place, type)); }
    void setband(uint32_t band, STRM_REPORT) { to(call(strm_setband, band)); }
    void adjmsg(int32_t count, STRM_REPORT) { to(call(strm_adjmsg, count)); }
    void pullupmsg(int32_t count, STRM_REPORT) { to(call(strm_pullupmsg, count)); }

    message dupb(STRM_REPORT) { return made(to, strm_dupb); }
    message dupmsg(STRM_REPORT) { return made(to, strm_dupmsg); }
    message copyb(STRM_REPORT) { return made(to, strm_copyb); }
    message copymsg(STRM_REPORT) { return made(to, strm_copymsg); }
    void freemsg(STRM_REPORT) { hand_over(to, at_.get(), strm_freemsg); }
    /* The message has the other blocks afterwards, or is empty if there are none. */
    void freeb(STRM_REPORT) {
        strm_msg rest;
        if (const int code = call(strm_freeb, &rest); to(code) || code == STRM_NONE)
            become(rest);
    }
    void linkb(message&& tail, STRM_REPORT) { at_ ? tail.hand_over(to, at_.get(), strm_linkb, name()) : void(to(STRM_BAD_ARGUMENT)); }
    /* Returns the other blocks, or an empty message. */
    message unlinkb(STRM_REPORT) { return made(to, strm_unlinkb); }
    /* Returns the block. The message has the other blocks afterwards, or is empty if there are none. */
    message rmvb(uint32_t place, STRM_REPORT) {
        strm_msg taken, rest;
        if (!to(call(strm_rmvb, place, &taken, &rest)))
            return {};
        message block(at_.get(), taken);
        become(rest);
        return block;
    }
    /* Returns the message in the other pool, and is empty afterwards. */
    message transfer(pool& other, STRM_REPORT);

private:
    friend class pool;
    friend class queue;
    struct freer {
        strm_msg name;
        void operator()(detail::shared* at) const noexcept { strm_freemsg(&at->handle, name), detail::leave(at); }
    };
    message(detail::shared* at, strm_msg name) noexcept : at_(at, freer{ name }) { at->users++; }
    template <class Call, class... Args>
    int call(Call call, Args... args) const { return at_ ? call(&at_->handle, name(), args...) : STRM_BAD_ARGUMENT; }
    template <class T, class Call, class... Args> T stored(report to, Call call, Args... args) const {
        return detail::stored<T>(to, [&](T* result) { return this->call(call, args..., result); });
    }
    template <class Call, class Array> size_t filled(report to, Call call, uint32_t from, Array into) const {
        return stored<size_t>(to, call, from, into.data(), into.size());
    }
    template <class Byte, class Call> span<Byte> in_place(report to, Call call, uint32_t place) const {
        return detail::in_place<Byte>(to, [&](auto* first, size_t* length) { return this->call(call, place, first, length); });
    }
    template <class Call> message made(report to, Call call) {
        return at_ ? given(to, at_.get(), call, name()) : (to(STRM_BAD_ARGUMENT), message());
    }
    void become(strm_msg name) noexcept { strm_is_no_msg(name) == 1 ? forget() : void(at_.get_deleter().name = name); }
    void forget() noexcept {
        if (at_)
            detail::leave(at_.release());
    }
    /* Why a pool can't be handed this message, or STRM_OK. */
    int fault(const detail::shared* pool) const noexcept { return !at_ ? STRM_BAD_ARGUMENT : at_.get() != pool ? STRM_INVALID : STRM_OK; }
    /* Hands the message to a call, which gets its name last. */
    template <class Call, class... Args> void hand_over(report to, detail::shared* pool, Call call, Args... args) {
        const int code = fault(pool);
        if (to(code == STRM_OK ? call(&pool->handle, args..., name()) : code))
            detail::leave(at_.release());
    }
    /* The message that a call gives, or an empty one. */
    template <class Call, class... Args> static message given(report to, detail::shared* pool, Call call, Args... args) {
        strm_msg name;
        return to(call(detail::handle_of(pool), args..., &name)) ? message(pool, name) : message();
    }
    /* Has a call give messages, or hands messages to it, some at a time. Returns the number of those that were given or taken. */
    template <bool gives, class Call, class... Args>
    static size_t series(report to, detail::shared* pool, span<message> msgs, Call call, Args... args) {
        std::array<strm_msg, 32> names;
        size_t done = 0, count;
        do {
            const size_t most = std::min(msgs.size() - done, names.size());
            size_t length = 0;
            int code = STRM_OK;
            for (; length < most && (gives || (code = msgs[done + length].fault(pool)) == STRM_OK); length++)
                names[length] = msgs[done + length].name();
            count = 0;
            if (length > 0 || code == STRM_OK)
                code = call(detail::handle_of(pool), args..., names.data(), length, &count);
            if (done == 0)
                to(code);
            for (size_t i = 0; i < count; i++, done++)
                gives ? void(msgs[done] = message(pool, names[i])) : msgs[done].forget();
        } while (count == names.size() && done < msgs.size());
        return done;
    }
    std::unique_ptr<detail::shared, freer> at_;
};

/* The blocks of a message, as a range that is its own iterator. */
class blocks {
public:
    explicit blocks(const message& of) noexcept : of_(&of) { look(); }
    blocks begin() const noexcept { return *this; }
    std::nullptr_t end() const noexcept { return nullptr; }
    bool operator!=(std::nullptr_t) const noexcept { return is_there_; }
    const block& operator*() const noexcept { return block_; }
    blocks& operator++() noexcept { return place_++, look(), *this; }

private:
    void look() noexcept {
        std::error_code code;
        block_ = { of_->block(place_, code), of_->bytes(place_, code) };
        is_there_ = !code;
    }
    const message* of_;
    uint32_t place_ = 0;
    block block_;
    bool is_there_;
};
inline strm::blocks message::blocks() const noexcept { return strm::blocks(*this); }

/* The looks at a queue: `size` is strm_qsize, `spec` strm_queue_spec, `info` strm_queue_info, and `band` strm_band_info. */
class queue_view {
public:
    queue_view(detail::shared* at, uint32_t number) noexcept : at_(at), number_(number) {}
    uint32_t size(STRM_REPORT) const { return look<uint32_t>(to, strm_qsize); }
    strm_queued queued_at(uint32_t place, STRM_REPORT) const { return look<strm_queued>(to, strm_queued_at, place); }
    size_t read_queued(uint32_t place, uint32_t at, buffer into, STRM_REPORT) const {
        return look<size_t>(to, strm_read_queued, place, at, into.data(), into.size());
    }
    optional<uint32_t> first_queued(STRM_REPORT) const { return head(to, strm_first_queued); }
    optional<uint32_t> last_queued(STRM_REPORT) const { return head(to, strm_last_queued); }
    strm_marks strqget(uint32_t band, STRM_REPORT) const { return look<strm_marks>(to, strm_strqget, band); }
    strm_queue_spec spec(STRM_REPORT) const { return look<strm_queue_spec>(to, strm_queue_spec_); }
    strm_queue_info info(STRM_REPORT) const { return look<strm_queue_info>(to, strm_queue_info_); }
    strm_band_info band(uint32_t band, STRM_REPORT) const { return look<strm_band_info>(to, strm_band_info_, band); }

protected:
    strm_pool* handle() const noexcept { return detail::handle_of(at_); }
    template <class T, class Call, class... Args>
    T look(report to, Call call, Args... args) const { return detail::stored<T>(to, call, handle(), number_, args...); }
    template <class Call> optional<uint32_t> head(report to, Call call) const { return detail::found<uint32_t>(to, call, handle(), number_); }
    detail::shared* at_;
    uint32_t number_;
};

/*
 * A queue: `put` is strm_putq, `put_back` strm_putbq, `insert` strm_insq, `get` strm_getq, and `remove` strm_rmvq. A message that
 * is refused stays as it was. `put_n` returns the number of messages that were put, which are empty then. `get_n`, `takeq` and
 * `takeq_band` return the number of those that were assigned.
 */
class queue : public queue_view {
public:
    using queue_view::queue_view;
    [[gnu::always_inline]] void put(message&& msg, STRM_REPORT) { msg.hand_over(to, at_, strm_putq, number_); }
    void put_back(message&& msg, STRM_REPORT) { msg.hand_over(to, at_, strm_putbq, number_); }
    void hold(message&& msg, STRM_REPORT) { msg.hand_over(to, at_, strm_hold, number_); }
    void insert(uint32_t place, message&& msg, STRM_REPORT) { msg.hand_over(to, at_, strm_insq, number_, place); }
    void insq_at(uint32_t before, message&& msg, STRM_REPORT) { msg.hand_over(to, at_, strm_insq_at, number_, before); }
    optional<message> get(STRM_REPORT) {
        message first = message::given(to, at_, strm_getq, number_);
        return first ? optional<message>(std::move(first)) : std::nullopt;
    }
    message remove(uint32_t place, STRM_REPORT) { return message::given(to, at_, strm_rmvq, number_, place); }
    size_t put_n(span<message> from, STRM_REPORT) { return message::series<false>(to, at_, from, strm_putq_n, number_); }
    size_t get_n(span<message> into, STRM_REPORT) { return message::series<true>(to, at_, into, strm_getq_n, number_); }
    size_t takeq(uint32_t flush, span<message> into, STRM_REPORT) { return message::series<true>(to, at_, into, strm_takeq, number_, flush); }
    size_t takeq_band(uint32_t band, uint32_t flush, span<message> into, STRM_REPORT) {
        return message::series<true>(to, at_, into, strm_takeq_band, number_, band, flush);
    }
    void flushq(uint32_t flush, STRM_REPORT) { to(strm_flushq(handle(), number_, flush)); }
    void flushband(uint32_t band, uint32_t flush, STRM_REPORT) { to(strm_flushband(handle(), number_, band, flush)); }
    bool bcanput(uint32_t band, STRM_REPORT) { return look<uint32_t>(to, strm_bcanput, band) == 1; }
    void strqset(uint32_t band, uint32_t high, uint32_t low, STRM_REPORT) { to(strm_strqset(handle(), number_, band, high, low)); }
    void qenable(STRM_REPORT) { to(strm_qenable(handle(), number_)); }
    void noenable(STRM_REPORT) { to(strm_noenable(handle(), number_)); }
    void enableok(STRM_REPORT) { to(strm_enableok(handle(), number_)); }
};

/* A pool, which its constructor opens, by strm_open_with if there is an allocator. */
class pool {
public:
    explicit pool(const config& config, STRM_REPORT) : at_(new detail::shared) {
        to(detail::with_config(config, [this](const strm_config* from) { return strm_open(handle(), from); }));
    }
    pool(const config& config, const strm_allocator& allocator, STRM_REPORT) : at_(new detail::shared) {
        to(detail::with_config(config, [&](const strm_config* from) { return strm_open_with(handle(), from, &allocator); }));
    }
    static size_t memory(const config& config, STRM_REPORT) {
        return detail::stored<size_t>(to, [&](size_t* bytes) { return detail::with_config(config, strm_memory, bytes); });
    }
    /* Takes over a handle that is open, or gives it away. */
    explicit pool(strm_pool handle) : at_(new detail::shared{ handle }) {}
    strm_pool release() noexcept { return at_ ? std::exchange(at_->handle, strm_pool()) : strm_pool(); }
    /* Takes over a name, which the message's calls check. */
    message adopt(strm_msg name) { return at_ ? message(at_.get(), name) : message(); }
    void close(STRM_REPORT) { to(strm_close(handle())); }
    bool is_open() const noexcept { return strm_is_open(handle()) == 1; }

    strm::queue queue(uint32_t number) noexcept { return { at_.get(), number }; }
    queue_view queue(uint32_t number) const noexcept { return { at_.get(), number }; }

    message allocb(uint32_t size, STRM_REPORT) { return message::given(to, at_.get(), strm_allocb, size); }
    bool testb(uint32_t size, STRM_REPORT) const { return stored<uint32_t>(to, strm_testb, size) == 1; }
    /* They return the number of messages that were assigned, or freed, which are empty then. */
    size_t allocb_n(uint32_t size, span<message> into, STRM_REPORT) { return message::series<true>(to, at_.get(), into, strm_allocb_n, size); }
    size_t freemsg_n(span<message> from, STRM_REPORT) { return message::series<false>(to, at_.get(), from, strm_freemsg_n); }
    optional<strm_msg> name_at(uint32_t head, STRM_REPORT) const { return found<strm_msg>(to, strm_name_at, head); }
    optional<uint32_t> queued_after(uint32_t head, STRM_REPORT) const { return found<uint32_t>(to, strm_queued_after, head); }
    optional<uint32_t> queued_before(uint32_t head, STRM_REPORT) const { return found<uint32_t>(to, strm_queued_before, head); }
    uint32_t queue_of(uint32_t head, STRM_REPORT) const { return stored<uint32_t>(to, strm_queue_of, head); }
    bytes queued_bytes(uint32_t head, uint32_t place, STRM_REPORT) const {
        return detail::in_place<const std::byte>(to, strm_queued_bytes, handle(), head, place);
    }
    size_t queued_iov(uint32_t head, uint32_t from, span<strm_iov> into, STRM_REPORT) const {
        return stored<size_t>(to, strm_queued_iov, head, from, into.data(), into.size());
    }
    message rmvq_msg(uint32_t head, STRM_REPORT) { return message::given(to, at_.get(), strm_rmvq_msg, head); }
    optional<uint32_t> next_service(STRM_REPORT) { return found<uint32_t>(to, strm_next_service); }
    /* The message is empty if no queue gives one. */
    message serve(uint32_t held, strm_service& service, STRM_REPORT) { return message::given(to, at_.get(), strm_serve, held, &service); }
    optional<uint32_t> run_at(uint32_t place, STRM_REPORT) const { return found<uint32_t>(to, strm_run_at, place); }
    uint32_t bufcall(uint32_t size, STRM_REPORT) { return stored<uint32_t>(to, strm_bufcall, size); }
    void unbufcall(uint32_t id, STRM_REPORT) { to(strm_unbufcall(handle(), id)); }
    optional<strm_wish> take_ready(STRM_REPORT) { return found<strm_wish>(to, strm_take_ready); }
    optional<strm_wish> wish_at(uint32_t place, STRM_REPORT) const { return found<strm_wish>(to, strm_wish_at, place); }
    strm_census census(STRM_REPORT) const { return stored<strm_census>(to, strm_census_); }
    optional<strm_class_info> class_info(uint32_t at, STRM_REPORT) const { return found<strm_class_info>(to, strm_class_info_, at); }
    /* The bytes of all data blocks of a size class, each of `stride` bytes. There are none without such a class. */
    bytes region(uint32_t place, size_t& stride, STRM_REPORT) const {
        return detail::in_place<const std::byte>(to, [&](auto* base, size_t* size) { return strm_region(handle(), place, base, size, &stride); });
    }
    uint32_t least_free_blocks(STRM_REPORT) const { return stored<uint32_t>(to, strm_least_free_blocks); }
    optional<uint32_t> least_free(uint32_t place, STRM_REPORT) const { return found<uint32_t>(to, strm_least_free, place); }
    void reset_least(STRM_REPORT) { to(strm_reset_least(handle())); }
    /* Empty if the pool is not open. */
    std::string report() const { return text_by(strm_report, handle()); }

private:
    friend class message;
    struct closer { void operator()(detail::shared* at) const noexcept { strm_close(&at->handle), detail::leave(at); } };
    strm_pool* handle() const noexcept { return detail::handle_of(at_.get()); }
    template <class T, class Call, class... Args>
    T stored(strm::report to, Call call, Args... args) const { return detail::stored<T>(to, call, handle(), args...); }
    template <class T, class Call, class... Args>
    optional<T> found(strm::report to, Call call, Args... args) const { return detail::found<T>(to, call, handle(), args...); }
    std::unique_ptr<detail::shared, closer> at_;
};

inline message message::transfer(pool& other, report to) {
    strm_msg moved;
    if (!to(at_ ? strm_transfer(&at_->handle, other.handle(), name(), &moved) : STRM_BAD_ARGUMENT))
        return {};
    forget();
    return message(other.at_.get(), moved);
}

}  // namespace strm

template <> struct std::is_error_code_enum<strm::refusal> : std::true_type {};
#undef STRM_REPORT
#endif
