// What bindings/cpp/strm.hpp adds to the calls of strm.h: who frees a message, empty messages, pools that are moved or gone, both forms of a call,
// ranges, and series of more messages than one call of strm.h is asked for. It compiles without exceptions too.
#include "check.h"

#include "strm.hpp"

#include <algorithm>
#include <new>
#include <string>
#include <vector>

namespace {

std::error_code code;

// Counts a check of what the call before it reported.
#define REFUSED(why) CHECK(code == strm::refusal::why)
#define DONE() CHECK(!code)

strm::config config(uint32_t id, uint32_t mblks = 100) {
    strm::config it;
    it.id = id;
    it.mblks = mblks;
    it.classes = { { 8, mblks } };
    it.queues = { { 64, 16, true, 1 }, {} };
    return it;
}

strm::message filled(strm::pool& pool, const char* text) {
    strm::message msg = pool.allocb(8, code);
    msg.write(0, strm::bytes_of(text), code);
    DONE();
    return msg;
}

bool has_census(const strm::pool& pool, uint32_t free, uint32_t queued, uint32_t held) {
    const strm_census census = pool.census(code);
    return !code && census.free == free && census.queued == queued && census.held == held;
}

std::string text_of(const strm::message& msg) {
    char text[64];
    const size_t count = msg.read(0, { reinterpret_cast<std::byte*>(text), sizeof text }, code);
    return { text, count };
}

void messages_are_freed() {
    strm::pool pool(config(1), code);
    DONE();
    {
        strm::message msg = filled(pool, "lion"), other = filled(pool, "wolf");
        CHECK(has_census(pool, 98, 0, 2));
        other = std::move(msg);
        CHECK(has_census(pool, 99, 0, 1) && text_of(other) == "lion");
        strm::message& same = other;
        other = std::move(same);
        CHECK(has_census(pool, 99, 0, 1) && text_of(other) == "lion");
        strm::message third(std::move(other));
        CHECK(!other && third && third.has(code));
    }
    CHECK(has_census(pool, 100, 0, 0));
    const strm_msg name = filled(pool, "bear").release();
    CHECK(has_census(pool, 99, 0, 1) && pool.name_at(name.head, code)->stamp == name.stamp);
    pool.adopt(name).freemsg(code);
    CHECK(has_census(pool, 100, 0, 0));
    pool.adopt(name).freemsg(code);
    REFUSED(invalid);
}

void empty_messages() {
    strm::pool pool(config(1), code), other(config(2), code);
    strm::message empty, msg = filled(pool, "lion"), foreign = filled(other, "wolf");
    CHECK(!empty && strm_is_no_msg(empty.name()) && strm_is_no_msg(empty.release()) && empty == strm::message() && msg != empty);
    CHECK(empty.size(code) == 0);
    REFUSED(bad_argument);
    CHECK(!empty.dupb(code));
    REFUSED(bad_argument);
    CHECK(!empty.rmvb(0, code));
    REFUSED(bad_argument);
    CHECK(!empty.transfer(other, code));
    REFUSED(bad_argument);
    empty.linkb(std::move(msg), code);
    REFUSED(bad_argument);
    msg.linkb(std::move(empty), code);
    REFUSED(bad_argument);
    pool.queue(0).put(std::move(empty), code);
    REFUSED(bad_argument);
    empty.freemsg(code);
    REFUSED(bad_argument);
    CHECK(empty.bytes(0, code).size() == 0);
    REFUSED(bad_argument);
    for (const auto& block : empty.blocks())
        CHECK(block.length > 9999);
    pool.queue(0).put(std::move(foreign), code);
    REFUSED(invalid);
    CHECK(foreign && text_of(foreign) == "wolf" && text_of(msg) == "lion");
    // A pool of the same id has a message of the same name.
    strm::pool twin(config(1), code);
    strm::message same = filled(twin, "bear");
    CHECK(same == msg);
    pool.queue(0).put(std::move(same), code);
    REFUSED(invalid);
    CHECK(same && text_of(same) == "bear" && text_of(msg) == "lion");
    msg.size(code);
    DONE();
}

void pools_that_move_and_end() {
    strm::message msg;
    strm_pool handle = STRM_POOL_INIT;
    {
        strm::pool first(config(1), code), second(config(2, 0), code);
        REFUSED(bad_mblks);
        CHECK(first.is_open() && !second.is_open());
        msg = filled(first, "lion");
        second = std::move(first);
        CHECK(second.is_open() && !first.is_open() && text_of(msg) == "lion" && has_census(second, 99, 0, 1));
        CHECK(!first.allocb(1, code) && !first.adopt(msg.name()));
        first.queue(0).qenable(code);
        REFUSED(not_open);
        CHECK(!msg.transfer(first, code) && msg);
        REFUSED(not_open);
        msg.freemsg(code);
        msg = filled(second, "wolf");
    }
    CHECK(msg.size(code) == 0);
    REFUSED(not_open);
    msg = strm::message();
    handle = strm::pool(config(3), code).release();
    CHECK(strm_is_open(&handle));
    strm::pool taken(handle);
    CHECK(has_census(taken, 100, 0, 0));
    taken.close(code);
    DONE();
    taken.close(code);
    REFUSED(not_open);
    size_t bytes = 0;
    const strm_class_spec classes[] = { { 8, 100 } };
    const strm_queue_spec queues[] = { { 64, 16, 1, 1 }, { 1, 0, 0, STRM_NO_QUEUE } };
    const strm_config same = { 1, 100, classes, 1, queues, 2, 0, 1 };
    CHECK(strm_memory(&same, &bytes) == STRM_OK && strm::pool::memory(config(1), code) == bytes);
    strm::config many = config(1);
    many.queues.resize(17);
    CHECK(strm::pool::memory(many, code) == 0);
    REFUSED(bad_argument);
}

void memory_of_ones_own() {
    struct memory {
        void* at = nullptr;
        size_t bytes = 0;
    } memory;
    const strm_allocator allocator = {
        [](void* context, size_t bytes, size_t) {
            auto* it = static_cast<struct memory*>(context);
            it->bytes = bytes;
            return it->at = ::operator new(bytes);
        },
        [](void* context, void* at, size_t) {
            auto* it = static_cast<struct memory*>(context);
            CHECK(at == it->at);
            ::operator delete(at);
            it->at = nullptr;
        },
        &memory,
    };
    {
        strm::pool pool(config(1), allocator, code);
        DONE();
        CHECK(memory.at != nullptr && memory.bytes == strm::pool::memory(config(1), code) && text_of(filled(pool, "lion")) == "lion");
    }
    CHECK(memory.at == nullptr && memory.bytes > 800);
    strm::pool none(config(1), { nullptr, nullptr, nullptr }, code);
    REFUSED(bad_argument);
    CHECK(!none.is_open());
}

void blocks_and_looks() {
    strm::pool pool(config(1), code);
    const strm::pool& looked = pool;
    strm::message msg = filled(pool, "");
    std::string all;
    size_t count = 0;
    for (int i = 0; i < 40; i++)
        msg.linkb(filled(pool, i % 2 == 0 ? "lion" : "wolf"), code);
    for (const auto& block : msg.blocks()) {
        CHECK(block.length == block.bytes.size() && block.names == 1);
        all += strm::text_of(block.bytes);
        count++;
    }
    CHECK(count == 41 && all == text_of(msg).substr(0, 64) + all.substr(64) && all.size() == 160 && all.substr(0, 8) == "lionwolf");
    strm::message part = msg.rmvb(0, code);
    CHECK(part && part.size(code) == 0 && msg.size(code) == 160);
    strm::message rest = msg.unlinkb(code);
    CHECK(rest && !msg.unlinkb(code) && !code);
    msg.freeb(code);
    CHECK(!msg && !code);
    rest.freeb(code);
    CHECK(rest && rest.size(code) == 152);
    part = part.rmvb(0, code);
    CHECK(part && !code);
    pool.queue(0).put(std::move(part), code);
    CHECK(looked.queue(0).size(code) == 1 && looked.queue(0).info(code).enabled == 1 && looked.run_at(0, code) == 0u);
    CHECK(!looked.run_at(1, code) && looked.queue(0).band(0, code).full == 0 && looked.queue(0).spec(code).next == 1);
    CHECK(looked.class_info(0, code)->total == 100 && !looked.class_info(1, code) && !code && !looked.wish_at(0, code));
    CHECK(pool.queue(0).get(code) && !pool.queue(0).get(code) && !code);
}

void bytes_in_place() {
    strm::pool pool(config(1), code);
    strm::message msg = filled(pool, "lion"), other = filled(pool, "wolf");
    const strm::bytes read = msg.bytes(0, code);
    const strm::buffer room = msg.room(0, code), bytes = msg.edit(0, code);
    CHECK(!code && bytes.data() == read.data() && bytes.size() == 4 && room.data() == bytes.data() + 4 && room.size() == 4);
    other.edit(0, code)[3] = std::byte('v');
    bytes[0] = std::byte('L');
    room[0] = std::byte('s');
    CHECK(strm::text_of(read) == "Lion" && text_of(msg) == "Lion" && text_of(other) == "wolv");
    msg.advance(0, 1, code);
    CHECK(text_of(msg) == "Lions" && msg.room(0, code).size() == 3);
    msg.advance(0, 3, code);
    CHECK(msg.room(0, code).size() == 0 && !code);
    msg.shape(0, 1, 3, code);
    CHECK(text_of(msg) == "ion" && msg.window(0, code).data() == bytes.data() && msg.window(0, code).size() == 8 && !code);
    const strm_block_shape shapes[] = { { 0, 5, STRM_M_PROTO, 2 }, { 0, 0, STRM_M_DATA, 0 } };
    msg.shape_all({ shapes, 2 }, code);
    REFUSED(no_such_block);
    msg.shape_all({ shapes, 1 }, code);
    CHECK(text_of(msg) == "Lions" && msg.block(0, code).type == STRM_M_PROTO && msg.block(0, code).band == 2 && !code);
    const strm::message copy = msg.dupb(code);
    CHECK(msg.edit(0, code).size() == 0);
    REFUSED(shared);
    CHECK(other.room(1, code).size() == 0);
    REFUSED(no_such_block);
    CHECK(strm::message().edit(0, code).data() == nullptr);
    REFUSED(bad_argument);
}

void reports() {
    strm::pool pool(config(1), code), small(config(2, 8), code);
    CHECK(small.report() == "blocks free=8 queued=0 held=0 total=8\ndata size=8 free=8 total=8\n"
                            "queue 0 msgs=0 bytes=0 read=1 noenable=0 enabled=0\nqueue 1 msgs=0 bytes=0 read=1 noenable=0 enabled=0\n"
                            "run -\nwishes -\n");
    small.close(code);
    CHECK(small.report().empty());
}

void messages_by_heads() {
    strm::pool pool(config(1), code);
    size_t stride = 0;
    strm::message a = filled(pool, "a"), b = filled(pool, "b");
    const uint32_t head = a.name().head;
    pool.queue(1).insq_at(STRM_NO_HEAD, std::move(a), code);
    pool.queue(1).insq_at(head, std::move(b), code);
    CHECK(!a && !b && !code && pool.queue(1).last_queued(code) == head && pool.queue_of(head, code) == 1);
    CHECK(text_of(pool.rmvq_msg(head, code)) == "a" && pool.queue(1).size(code) == 1);
    CHECK(!pool.rmvq_msg(head, code));
    REFUSED(no_such_place);
    CHECK(pool.least_free_blocks(code) == 98 && pool.least_free(0, code) == 98u && !pool.least_free(1, code) && !code);
    pool.reset_least(code);
    CHECK(pool.least_free_blocks(code) == 99 && pool.least_free(0, code) == 99u);
    CHECK(pool.region(0, stride, code).size() >= 800 && stride >= 8 && pool.region(1, stride, code).size() == 0 && !code);
}

void series() {
    strm::pool pool(config(1), code);
    std::vector<strm::message> messages(100);
    CHECK(pool.allocb_n(8, messages, code) == 100 && has_census(pool, 0, 0, 100));
    CHECK(pool.allocb_n(8, messages, code) == 0);
    REFUSED(no_mblk);
    CHECK(std::all_of(messages.begin(), messages.end(), [](const strm::message& msg) { return msg && msg.has(code); }));
    const strm_msg first = messages[0].name();
    messages[70].freemsg(code);
    CHECK(pool.queue(1).put_n(messages, code) == 70 && !code && !messages[69] && messages[71]);
    CHECK(pool.queue(1).put_n(messages, code) == 0);
    REFUSED(bad_argument);
    CHECK(has_census(pool, 1, 70, 29));
    CHECK(pool.freemsg_n({ &messages[71], 29 }, code) == 29 && has_census(pool, 30, 70, 0));
    CHECK(pool.queue(1).get_n({ messages.data(), 64 }, code) == 64 && pool.queue(1).info(code).read == 0);
    CHECK(messages[0].name().head == first.head);
    CHECK(pool.queue(1).get_n({ &messages[64], 36 }, code) == 6 && !code && pool.queue(1).info(code).read == 1);
    CHECK(pool.queue(1).get_n(messages, code) == 0 && !code && pool.queue(1).get_n({}, code) == 0);
    CHECK(has_census(pool, 30, 0, 70));
    // The first call of strm.h leaves nothing for the second, which reports that.
    strm::pool small(config(2, 32), code);
    std::vector<strm::message> more(33);
    CHECK(small.allocb_n(8, more, code) == 32 && !code && more[31] && !more[32]);
}

void refusals() {
    CHECK(strm::make_error_code(strm::refusal::no_room).message() == strm_error(STRM_NO_ROOM));
    CHECK(strm::name_of(strm::refusal::bad_class_total) == "STRM_BAD_CLASS_TOTAL" && strm::version() == STRM_VERSION);
    strm::pool pool(config(1), code);
    CHECK(pool.bufcall(9, code) == 0);
    REFUSED(too_large);
    CHECK(pool.testb(8, code) && !pool.testb(9, code) && !code);
#ifdef __cpp_exceptions
    const auto thrown = [](auto call) {
        try {
            call();
        } catch (const std::system_error& refusal) {
            return refusal.code();
        }
        return std::error_code();
    };
    CHECK(thrown([&] { (void)pool.allocb(9); }) == strm::refusal::too_large);
    CHECK(thrown([&] { (void)strm::message().size(); }) == strm::refusal::bad_argument);
    CHECK(thrown([&] { strm::pool other(config(2, 0)); }) == strm::refusal::bad_mblks);
    CHECK(!thrown([&] { CHECK(!pool.queue(0).get() && pool.allocb(8).size() == 0); }));
    CHECK(has_census(pool, 100, 0, 0));
#endif
}

}  // namespace

int main() {
    messages_are_freed();
    empty_messages();
    pools_that_move_and_end();
    memory_of_ones_own();
    blocks_and_looks();
    bytes_in_place();
    reports();
    messages_by_heads();
    series();
    refusals();
    return summary();
}
