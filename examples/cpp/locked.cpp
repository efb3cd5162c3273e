// Two threads and a channel, as ../c/locked.c has it. The sender waits while the channel is full, and the receiver while it is empty. At the end
// the sender closes the channel, and the receiver takes what is left.
//
//     c++ -std=c++17 locked.cpp $(pkg-config --cflags --libs strm) -lstrm_mt -pthread -o locked
#include <strm_channel.hpp>

#include <cstring>
#include <iostream>
#include <thread>

constexpr uint32_t NUMBERS = 100000;

int main() {
    strm::channel way(sizeof(uint32_t), 64, 128);
    std::thread sender([&] {
        for (uint32_t number = 0; number < NUMBERS; number++)
            way.send({ reinterpret_cast<const std::byte*>(&number), sizeof number });
        way.close();
    });
    std::vector<std::byte> bytes;
    uint32_t next = 0;
    while (way.receive(bytes) == strm::channel::done && std::memcmp(bytes.data(), &next, sizeof next) == 0)
        next++;
    sender.join();
    const strm_census census = way.census();
    std::cout << next << " numbers came in order\n";
    std::cout << "free " << census.free << " queued " << census.queued << " held " << census.held << '\n';
}
