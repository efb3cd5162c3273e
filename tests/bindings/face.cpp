// Does the drawn calls of tests/c/drawn.c through bindings/cpp/strm.hpp, by the throwing form of a call and by the other in turn. It takes the
// place of tests/c/face.c. A call whose method has its name and takes its numbers needs no case: tests/bindings/run makes these.
#include "face.h"

#include "strm.hpp"

#include <algorithm>
#include <cstring>
#include <type_traits>
#include <vector>

namespace {

bool same(const strm_msg& a, const strm_msg& b) { return std::memcmp(&a, &b, sizeof a) == 0; }

// A face during a call: its pool, and the messages of registers that the call gets. In the end they go back.
class lent {
public:
    explicit lent(face& of) : pool(of.pool), of_(of) {}
    ~lent() {
        for (each& it : taken_)
            go_back(it);
        pool.release();
    }
    strm::message& take(int reg) {
        taken_.push_back({ reg, pool.adopt(of_.registers[reg]) });
        return taken_.back().msg;
    }
    // Puts a new message into a register, once those that the call got are back.
    void put(int reg, strm::message msg) {
        for (each& it : taken_)
            go_back(it);
        taken_.clear();
        if (!msg || same(msg.name(), of_.registers[reg]))
            of_.broken = 1;
        of_.registers[reg] = msg.release();
        of_.holds[reg] = 1;
    }
    // A refused call leaves all messages as they were.
    void refused() {
        for (const each& it : taken_)
            if (!it.msg || !same(it.msg.name(), of_.registers[it.reg]))
                of_.broken = 1;
    }
    void must(bool holds) {
        if (!holds)
            of_.broken = 1;
    }
    face& of() { return of_; }

    strm::pool pool;

private:
    struct each {
        int reg;
        strm::message msg;
    };

    void go_back(each& it) {
        if (!it.msg)
            of_.holds[it.reg] = 0;
        else
            of_.registers[it.reg] = it.msg.release();
    }

    face& of_;
    std::vector<each> taken_ = reserved();
    static std::vector<each> reserved() {
        std::vector<each> none;
        none.reserve(MOST_ITEMS + 2);
        return none;
    }
};

// The reply for what a method returned. A message goes into its register, unless there is none.
reply told_of(lent&, const call&, bool yes) { return reply_of(yes ? YES : NO); }

reply told_of(lent& it, const call& call, strm::message msg) {
    if (!msg)
        return reply_of(NOTHING);
    it.put(call.y, std::move(msg));
    return reply_of(DONE);
}

template <class Numbers>
reply told_of(lent&, const call& call, const Numbers& numbers) {
    return told_from(kind_of(call.verb), &numbers);
}

template <class T>
reply told_of(lent& it, const call& call, std::optional<T> found) {
    return found ? told_of(it, call, std::move(*found)) : reply_of(NOTHING);
}

template <class Call>
reply made(lent& it, const call& call, Call does) {
    if constexpr (std::is_void_v<decltype(does())>)
        return does(), reply_of(DONE);
    else
        return told_of(it, call, does());
}

// The bytes that a look copied into a buffer, which it must not touch behind them.
template <class Read>
reply bytes_told(lent& it, Read read) {
    std::array<std::byte, MOST_OCTETS + 1> bytes;
    reply reply = reply_of(TOLD_BYTES);

    bytes.fill(std::byte(0xA5));
    const size_t count = read(strm::buffer(bytes.data(), MOST_OCTETS));
    for (size_t i = count; i < bytes.size(); i++)
        it.must(bytes[i] == std::byte(0xA5));
    reply.numbers[0] = static_cast<uint32_t>(count);
    std::memcpy(reply.octets, bytes.data(), count);
    return reply;
}

reply block_bytes_told(strm::bytes bytes) {
    reply reply = told(TOLD_BYTES, static_cast<uint32_t>(bytes.size()), 0);
    for (size_t i = 0; i < bytes.size() && i < MOST_OCTETS; i++)
        reply.octets[i] = static_cast<uint8_t>(bytes[i]);
    return reply;
}

// The data blocks of a size class, and the bytes of one.
reply region_told(const strm::pool& pool, const call& call, strm::report to) {
    size_t stride = 0;
    const strm::bytes found = pool.region(call.place, stride, to);
    reply reply = found.size() > 0 ? block_bytes_told(found) : reply_of(NOTHING);
    reply.numbers[1] = static_cast<uint32_t>(stride);
    return reply;
}

// Bytes in place, once octets were written there.
reply written_told(strm::buffer found, strm::bytes octets) {
    std::copy_n(octets.data(), std::min(octets.size(), found.size()), found.data());
    return block_bytes_told({ found.data(), found.size() });
}

reply blocks_told(const strm::message& x, const call& call, strm::report to) {
    std::array<strm_block_info, MOST_ITEMS> infos;
    const size_t count = x.blocks(call.place, strm::span<strm_block_info>(infos.data(), call.items), to);
    reply reply = told(TOLD_BLOCKS, static_cast<uint32_t>(count), 0);
    std::memcpy(reply.numbers + 1, infos.data(), count * sizeof infos[0]);
    return reply;
}

// The lengths and the first bytes of some blocks.
reply iov_told(const std::array<strm_iov, MOST_ITEMS>& iov, size_t count) {
    reply reply = told(TOLD_IOV, static_cast<uint32_t>(count), 0);
    size_t had = 0;

    for (size_t i = 0; i < count; i++) {
        reply.numbers[1 + i] = static_cast<uint32_t>(iov[i].length);
        for (size_t from = 0; from < iov[i].length && had < MOST_OCTETS; from++)
            reply.octets[had++] = static_cast<const uint8_t*>(iov[i].base)[from];
    }
    return reply;
}

// The same of a message that is held, whose range of blocks must have them too.
reply held_iov_told(lent& it, const strm::message& x, const call& call, strm::report to) {
    std::array<strm_iov, MOST_ITEMS> iov;
    const size_t count = x.iov(call.place, strm::span<strm_iov>(iov.data(), call.items), to);
    size_t place = 0, seen = 0;

    for (const auto& block : x.blocks()) {
        if (place >= call.place && place < call.place + count) {
            it.must(block.bytes.data() == iov[place - call.place].base && block.bytes.size() == iov[place - call.place].length);
            it.must(block.length == block.bytes.size());
            seen++;
        }
        place++;
    }
    it.must(seen == count);
    return iov_told(iov, count);
}

reply queued_iov_told(const strm::pool& pool, const call& call, strm::report to) {
    std::array<strm_iov, MOST_ITEMS> iov;
    return iov_told(iov, pool.queued_iov(call.number, call.place, strm::span<strm_iov>(iov.data(), call.items), to));
}

reply name_told(lent& it, std::optional<strm_msg> name) {
    if (!name)
        return reply_of(NOTHING);
    for (uint32_t reg = 0; reg < REGISTERS; reg++)
        if (it.of().holds[reg] && same(*name, it.of().registers[reg]))
            return told(TOLD_NAME, reg, 0);
    it.must(false);
    return reply_of(NOTHING);
}

// Registers get messages, or hand them over, by one call.
reply gave_many(lent& it, const call& call, strm::report to) {
    std::array<strm::message, MOST_ITEMS + 1> messages;
    const strm::span<strm::message> into(messages.data(), call.items);
    strm::queue queue = it.pool.queue(call.queue);
    const size_t count = call.verb == ALLOCB_N ? it.pool.allocb_n(call.number, into, to)
        : call.verb == GETQ_N ? queue.get_n(into, to)
        : call.verb == TAKEQ ? queue.takeq(call.flush, into, to) : queue.takeq_band(call.band, call.flush, into, to);
    for (size_t i = 0; i < messages.size(); i++)
        if (i < count)
            it.put(call.many[i], std::move(messages[i]));
        else
            it.must(!messages[i]);
    return call.verb == GETQ_N && count == 0 && call.items > 0 ? reply_of(NOTHING) : told(TOLD_COUNT, static_cast<uint32_t>(count), 0);
}

reply took_many(lent& it, const call& call, strm::report to) {
    std::vector<strm::message> messages;
    for (uint32_t i = 0; i < call.items; i++)
        messages.push_back(it.pool.adopt(it.of().registers[call.many[i]]));
    size_t count = 0;
    const auto go_back = [&] {
        for (uint32_t i = 0; i < call.items; i++)
            if (i < count)
                it.of().holds[call.many[i]] = 0;
            else
                it.must(same(messages[i].release(), it.of().registers[call.many[i]]));
    };
    try {
        count = call.verb == FREEMSG_N ? it.pool.freemsg_n(messages, to) : it.pool.queue(call.queue).put_n(messages, to);
    } catch (...) {
        go_back();
        throw;
    }
    go_back();
    return told(TOLD_COUNT, static_cast<uint32_t>(count), 0);
}

// Does a call by the case that is made for it, or by one of these.
reply apply_by(lent& it, lent& other, const call& call, strm::report to) {
    const strm::bytes octets(reinterpret_cast<const std::byte*>(call.octets), call.length);
    strm::pool& pool = it.pool;
    strm::queue queue = pool.queue(call.queue);
    strm::message none;
    strm::message& x = names(call.verb, "xXv") ? it.take(call.x) : none;

    switch (call.verb) {
#include "cases.h"
    case GETQ: return told_of(it, call, queue.get(to));
    case RMVQ: return told_of(it, call, queue.remove(call.place, to));
    case QSIZE: return told_of(it, call, queue.size(to));
    case QUEUE_INFO: return told_of(it, call, queue.info(to));
    case BAND_INFO: return told_of(it, call, queue.band(call.band, to));
    case QUEUE_SPEC: return told_of(it, call, queue.spec(to));
    case MESSAGE: return told_of(it, call, x.info(to));
    case PUTQ: return queue.put(std::move(x), to), reply_of(DONE);
    case PUTBQ: return queue.put_back(std::move(x), to), reply_of(DONE);
    case HOLD: return queue.hold(std::move(x), to), reply_of(DONE);
    case SERVE: {
        strm_service service;
        strm::message msg = pool.serve(call.place, service, to);
        if (!msg)
            return reply_of(NOTHING);
        it.put(call.y, std::move(msg));
        return told_of(it, call, service);
    }
    case INSQ: return queue.insert(call.place, std::move(x), to), reply_of(DONE);
    case INSQ_AT: return queue.insq_at(call.number, std::move(x), to), reply_of(DONE);
    case LINKB: return x.linkb(std::move(it.take(call.z)), to), reply_of(DONE);
    case TRANSFER: return told_of(other, call, x.transfer(other.pool, to));
    case WRITE: return x.write(call.place, octets, to), reply_of(DONE);
    case OVERWRITE: return x.overwrite(call.place, octets, to), reply_of(DONE);
    case PREPEND: return x.prepend(octets, to), reply_of(DONE);
    case SHAPE_ALL: return x.shape_all({ call.shapes, call.items }, to), reply_of(DONE);
    case ROOM: return written_told(x.room(call.place, to), octets);
    case WINDOW: return written_told(x.window(call.place, to), octets);
    case EDIT: return written_told(x.edit(call.place, to), octets);
    case READ: return bytes_told(it, [&](strm::buffer into) { return x.read(call.place, into, to); });
    case READ_QUEUED:
        return bytes_told(it, [&](strm::buffer into) { return queue.read_queued(call.place, call.number, into, to); });
    case BYTES: return block_bytes_told(x.bytes(call.place, to));
    case QUEUED_BYTES: return block_bytes_told(pool.queued_bytes(call.number, call.place, to));
    case BLOCKS: return blocks_told(x, call, to);
    case IOV: return held_iov_told(it, x, call, to);
    case QUEUED_IOV: return queued_iov_told(pool, call, to);
    case REGION: return region_told(pool, call, to);
    case NAME_AT: return name_told(it, pool.name_at(call.number, to));
    case ALLOCB_N: case GETQ_N: case TAKEQ: case TAKEQ_BAND: return gave_many(it, call, to);
    default: return took_many(it, call, to);
    }
}

// The reply of a call that was refused. The model gives no refusal of arguments.
reply refused_by(lent& it, std::error_code code) {
    it.refused();
    if (code == strm::refusal::invalid)
        return reply_of(EMPTY);
    it.must(code.category() == strm::category() && code.value() > 0);
    return refused(code.value());
}

}  // namespace

struct reply face_apply(struct face* face, struct face* other, const struct call* call) {
    static unsigned long calls;
    lent own(*face), another(*other);
    std::error_code code;
    reply reply = reply_of(NOTHING);
    const auto apply = [&](strm::report to) { return apply_by(own, another, *call, to); };

    if (calls++ % 2 == 0) {
        reply = apply(code);
    } else {
        try {
            reply = apply({});
        } catch (const std::system_error& refusal) {
            code = refusal.code();
        }
    }
    return code ? refused_by(own, code) : reply;
}
