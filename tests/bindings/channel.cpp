/* Makes each call of strm_channel.hpp with each of its results. The last line is 'N passed, M failed'. */
#include <strm_channel.hpp>

#include "check.h"

#include <poll.h>
#include <thread>

using namespace std::chrono_literals;
using strm::bytes_of, strm::channel;

static std::vector<std::byte> into;

static bool has(std::string_view text) { return strm::text_of({ into.data(), into.size() }) == text; }

/* Whether a call takes at least this time. */
template <class Call> static bool lasts(std::chrono::milliseconds least, Call call) {
    const auto began = std::chrono::steady_clock::now();
    call();
    return std::chrono::steady_clock::now() - began >= least;
}

/* What a call is refused as, or no code. */
template <class Call> static std::error_code refused(Call call) {
    try {
        call();
    } catch (const std::system_error& why) {
        return why.code();
    }
    return {};
}

int main() {
    channel way(8, 3, 4);
    pollfd look = { way.readable(), POLLIN, 0 };

    CHECK(refused([] { channel(0, 1); }) == strm::refusal::bad_class_size);
    CHECK(refused([&] { way.send(bytes_of("too large")); }) == strm::refusal::too_large);
    CHECK(refused([&] { way.send(bytes_of("a"), 256); }) == strm::refusal::bad_argument);
    CHECK(way.try_receive(into) == channel::timed_out && into.empty() && poll(&look, 1, 0) == 0);
    CHECK(lasts(20ms, [&] { CHECK(way.receive_for(20ms, into) == channel::timed_out); }));
    CHECK(way.send(bytes_of("lion")) == channel::done && poll(&look, 1, 0) == 1);
    CHECK(way.try_send(bytes_of("bear")) == channel::timed_out);
    CHECK(lasts(20ms, [&] { CHECK(way.send_for(20ms, bytes_of("bear")) == channel::timed_out); }));
    CHECK(way.send(bytes_of("fox"), 1) == channel::done);
    CHECK(way.census().queued == 2 && way.census().held == 0);
    CHECK(way.receive(into) == channel::done && has("fox"));
    CHECK(way.receive_for(std::chrono::hours::max(), into) == channel::done && has("lion"));

    channel::status came = channel::closed, went = channel::done;
    std::thread receiver([&] { came = way.receive(into); });
    CHECK(way.send_for(1h, bytes_of("owl")) == channel::done);
    receiver.join();
    CHECK(came == channel::done && has("owl"));
    CHECK(way.send(bytes_of("last")) == channel::done);
    std::thread sender([&] { went = way.send(bytes_of("late")); });
    way.close();
    sender.join();
    CHECK(went == channel::closed);
    CHECK(way.try_send(bytes_of("late")) == channel::closed);
    CHECK(way.receive(into) == channel::done && has("last"));
    CHECK(way.receive(into) == channel::closed && way.census().free == 3);
    return summary();
}
