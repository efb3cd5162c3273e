// Posts two messages, as ../c/post.c does. The first goes on the queue. The second is larger than the largest size class, so it is refused.
//
//     c++ -std=c++17 post.cpp $(pkg-config --cflags --libs strm) -o post
#include <strm.hpp>

#include <iostream>
#include <string>

// Puts a message with these bytes on queue 0. If a call is refused, the message is freed.
static void post(strm::pool& pool, strm::bytes bytes) {
    strm::message msg = pool.allocb(static_cast<uint32_t>(bytes.size()));
    msg.write(0, bytes);
    pool.queue(0).put(std::move(msg));
}

// What came of it.
static std::string posted(strm::pool& pool, strm::bytes bytes) {
    try {
        post(pool, bytes);
        return "done";
    } catch (const std::system_error& refusal) {
        return refusal.code().message();
    }
}

int main() {
    strm::config config;
    config.mblks = 40;
    config.classes = { { 16, 32 }, { 256, 8 } };
    config.queues = { { 64, 16, true } };
    strm::pool pool(config);

    std::cout << "4 bytes: " << posted(pool, strm::bytes_of("lion")) << '\n';
    std::cout << "300 bytes: " << posted(pool, strm::bytes_of(std::string(300, '\0'))) << '\n';
    const strm_census census = pool.census();
    std::cout << "free " << census.free << " queued " << census.queued << " held " << census.held << '\n';
}
