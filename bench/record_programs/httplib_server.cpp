// A server of cpp-httplib: four clients send 50 requests each over 127.0.0.1, and the handler counts them.
#include <httplib.h>

#include <atomic>
#include <cstdio>
#include <string>
#include <thread>
#include <vector>

static long requests; // raised by every handler, protected by nobody
static std::atomic<int> answered;

static void ask(int port)
{
    for (int i = 0; i < 50; i++) {
        httplib::Client client("127.0.0.1", port);
        auto answer = client.Get("/hello");
        if (answer && answer->status == 200 && answer->body == "hello")
            answered.fetch_add(1, std::memory_order_relaxed);
    }
}

int main()
{
    httplib::Server server;
    server.new_task_queue = [] { return new httplib::ThreadPool(4); };
    server.Get("/hello", [](const httplib::Request &, httplib::Response &answer) {
#ifndef NO_RACE
        requests++; // RACE
#endif
        answer.set_content("hello", "text/plain");
    });
    int port = server.bind_to_any_port("127.0.0.1");
    std::thread listener([&] { server.listen_after_bind(); });
    std::vector<std::thread> clients;
    for (int i = 0; i < 4; i++)
        clients.emplace_back(ask, port);
    for (auto &client : clients)
        client.join();
    server.stop();
    listener.join();
    std::printf("%d of 200 requests answered, %ld counted\n", answered.load(), requests);
    return answered == 200 ? 0 : 1;
}
