// Hunts a leak, as ../c/leak.c does. A message that goes out of scope is freed, so only one whose name was released can leak. The number of its
// first block is the index in a table of who made it; a walk by name_at finds also a message that the table does not know.
//
//     c++ -std=c++17 leak.cpp $(pkg-config --cflags --libs strm) -o leak
#include <strm.hpp>

#include <array>
#include <iostream>

constexpr uint32_t MBLKS = 16;

struct note {
    strm_msg msg;
    std::string_view maker;
};
static std::array<note, MBLKS> notes;

static void post(strm::pool& pool, std::string_view maker, std::string_view text) {
    strm::message msg = pool.allocb(static_cast<uint32_t>(text.size()));
    notes[msg.name().head] = { msg.name(), maker };
    msg.write(0, strm::bytes_of(text));
    pool.queue(0).put(std::move(msg));
}

static void take_all(strm::pool& pool) {
    while (std::optional<strm::message> msg = pool.queue(0).get()) {
        note& note = notes[msg->name().head];
        note.msg = msg->name(); // a new name, the same first block
        if (note.maker == "timer")
            msg->release(); // here it leaks
    }
}

static void print_held(strm::pool& pool) {
    std::cout << pool.census().held << " blocks are held\n";
    for (uint32_t at = 0; at < MBLKS; at++)
        if (const std::optional<strm_msg> name = pool.name_at(at)) {
            const strm::message msg = pool.adopt(*name); // and it is freed after all
            std::cout << "block " << at << ": " << msg.size() << " bytes, maker: "
                      << (strm_same_msg(notes[at].msg, *name) ? notes[at].maker : "unknown") << '\n';
        }
}

int main() {
    strm::config config;
    config.mblks = MBLKS;
    config.classes = { { 16, MBLKS } };
    config.queues = { { 64, 16 } };
    strm::pool pool(config);

    post(pool, "line", "abcd");
    post(pool, "timer", "tick");
    post(pool, "line", "ef");
    take_all(pool);
    pool.allocb(4).release();
    print_held(pool);
}
