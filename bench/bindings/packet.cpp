// The ways of packets of ../peers/peer.h through strm.hpp, by calls that throw, and by calls that set a std::error_code.
#include "strm.hpp"

extern "C" {
#include "peer.h"
}

namespace {

strm::config config(int number) {
    strm::config it;
    it.id = static_cast<uint32_t>(number);
    it.mblks = BLOCKS;
    it.classes = { { SIZE, BLOCKS - 40 }, { 256, 32 }, { FRAME, 8 } };
    it.queues = { { 65536, 1024, true } };
    return it;
}

strm::bytes coming(uint32_t size) { return { reinterpret_cast<const std::byte*>(bytes), size }; }
strm::buffer going(uint32_t size) { return { reinterpret_cast<std::byte*>(copied), size }; }
bool sees_bytes(strm::bytes header) { return sees(reinterpret_cast<const unsigned char*>(header.data())) == 1; }

int copies(void* given, uint32_t size) {
    strm::pool& pool = *static_cast<strm::pool*>(given);
    strm::message msg = pool.allocb(size);
    msg.write(0, coming(size));
    msg.read(0, going(size));
    sees(copied);
    pool.queue(0).put(std::move(msg));
    const std::optional<strm::message> taken = pool.queue(0).get();
    return taken && taken->read(0, going(size)) == size;
}

int in_place(void* given, uint32_t size) {
    strm::pool& pool = *static_cast<strm::pool*>(given);
    strm::message msg = pool.allocb(size);
    msg.write(0, coming(size));
    sees_bytes(msg.bytes(0));
    pool.queue(0).put(std::move(msg));
    const std::optional<strm::message> taken = pool.queue(0).get();
    if (!taken)
        return 0;
    const strm::bytes lent = taken->bytes(0);
    return lent.size() == size && sees_bytes(lent);
}

int copies_by_codes(void* given, uint32_t size) {
    strm::pool& pool = *static_cast<strm::pool*>(given);
    std::error_code code;
    strm::message msg = pool.allocb(size, code);
    if (code || (msg.write(0, coming(size), code), code) || (msg.read(0, going(size), code), code) || !sees(copied))
        return 0;
    pool.queue(0).put(std::move(msg), code);
    if (code)
        return 0;
    const std::optional<strm::message> taken = pool.queue(0).get(code);
    return taken && taken->read(0, going(size), code) == size;
}

int in_place_by_codes(void* given, uint32_t size) {
    strm::pool& pool = *static_cast<strm::pool*>(given);
    std::error_code code;
    strm::message msg = pool.allocb(size, code);
    if (code || (msg.write(0, coming(size), code), code) || !sees_bytes(msg.bytes(0, code)) || code)
        return 0;
    pool.queue(0).put(std::move(msg), code);
    if (code)
        return 0;
    const std::optional<strm::message> taken = pool.queue(0).get(code);
    if (!taken)
        return 0;
    const strm::bytes lent = taken->bytes(0, code);
    return lent.size() == size && sees_bytes(lent);
}

}  // namespace

extern "C" {

void* peer_open(int number, const use*) { return new strm::pool(config(number)); }
int peer_enter(void) { return 1; }
void peer_leave(void) {}

const struct work works[] = {
    { "copies_short", [](void* room) { return copies(room, SIZE); } },
    { "copies_long", [](void* room) { return copies(room, LONG); } },
    { "in_place_short", [](void* room) { return in_place(room, SIZE); } },
    { "in_place_long", [](void* room) { return in_place(room, LONG); } },
    { "copies_short_codes", [](void* room) { return copies_by_codes(room, SIZE); } },
    { "copies_long_codes", [](void* room) { return copies_by_codes(room, LONG); } },
    { "in_place_short_codes", [](void* room) { return in_place_by_codes(room, SIZE); } },
    { "in_place_long_codes", [](void* room) { return in_place_by_codes(room, LONG); } },
    { nullptr, nullptr },
};

}
