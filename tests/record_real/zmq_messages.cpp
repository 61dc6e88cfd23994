// libzmq: three threads take messages over TCP and pass them on within the process.
#include <zmq.h>

#include <chrono>
#include <cstdio>
#include <string>
#include <thread>
#include <vector>

constexpr int messages = 300, threads = 3;

static void pass_on(void *context, const std::string &place) {
    void *in = zmq_socket(context, ZMQ_PULL), *out = zmq_socket(context, ZMQ_PUSH);
    zmq_connect(in, place.c_str());
    zmq_connect(out, "inproc://sink");
    for (char bytes[100];;) {
        int size = zmq_recv(in, bytes, sizeof bytes, 0);
        if (size <= 1)
            break;
        zmq_send(out, bytes, size, 0);
    }
    zmq_close(in);
    zmq_close(out);
}

int main() {
    void *context = zmq_ctx_new();
    void *sink = zmq_socket(context, ZMQ_PULL), *source = zmq_socket(context, ZMQ_PUSH);
    zmq_bind(sink, "inproc://sink");
    zmq_bind(source, "tcp://127.0.0.1:*");
    char place[100];
    size_t size = sizeof place;
    zmq_getsockopt(source, ZMQ_LAST_ENDPOINT, place, &size);
    std::vector<std::thread> all;
    for (int thread = 0; thread < threads; thread++)
        all.emplace_back(pass_on, context, std::string(place));
    std::this_thread::sleep_for(std::chrono::milliseconds(200));
    for (int number = 0; number < messages; number++)
        zmq_send(source, std::string(10 + number % 50, 'x').data(), 10 + number % 50, 0);
    size_t sum = 0;
    for (int number = 0; number < messages; number++) {
        char bytes[100];
        sum += zmq_recv(sink, bytes, sizeof bytes, 0);
    }
    for (int thread = 0; thread < threads; thread++)
        zmq_send(source, "q", 1, 0);
    for (std::thread &one : all)
        one.join();
    zmq_close(source);
    zmq_close(sink);
    zmq_ctx_term(context);
    std::printf("%zu\n", sum);
}
