// A network in C++ as flow_net has it: adjacency by linked lists, breadth first, memory once a
// call.
#pragma once
#include <algorithm>
#include <cstddef>
#include <cstdint>
#include <utility>
#include <vector>

struct Arc { uint16_t from, to; uint32_t capacity; };
struct Reach { uint16_t node, before; uint32_t arc; bool along; uint32_t room; };

struct Net {
    uint16_t nodes;
    std::vector<Arc> arcs;
    std::vector<uint32_t> flow, first_out, first_in, next_out, next_in;

    Net(uint16_t n, size_t room) : nodes(n), first_out(n), first_in(n) {
        arcs.reserve(room); flow.reserve(room); next_out.reserve(room); next_in.reserve(room);
    }
    void add_arc(uint16_t from, uint16_t to, uint32_t capacity) {
        arcs.push_back({from, to, capacity});
        flow.push_back(0);
        next_out.push_back(first_out[from]); first_out[from] = arcs.size();
        next_in.push_back(first_in[to]); first_in[to] = arcs.size();
    }
    bool find(std::vector<uint8_t>& reached, std::vector<Reach>& queue, uint16_t source,
              uint16_t sink) {
        std::fill(reached.begin(), reached.end(), 0);
        reached[source] = 1;
        queue.clear();
        queue.push_back({source, 0, 0, true, UINT32_MAX});
        for (size_t place = 0; place < queue.size(); place++) {
            Reach at = queue[place];
            for (uint32_t name = first_out[at.node]; name; name = next_out[name - 1]) {
                uint32_t a = name - 1, room = arcs[a].capacity - flow[a];
                uint16_t node = arcs[a].to;
                if (!room || reached[node]) continue;
                reached[node] = 1;
                queue.push_back({node, (uint16_t)place, a, true, std::min(room, at.room)});
                if (node == sink) return true;
            }
            for (uint32_t name = first_in[at.node]; name; name = next_in[name - 1]) {
                uint32_t a = name - 1, room = flow[a];
                uint16_t node = arcs[a].from;
                if (!room || reached[node]) continue;
                reached[node] = 1;
                queue.push_back({node, (uint16_t)place, a, false, std::min(room, at.room)});
                if (node == sink) return true;
            }
        }
        return false;
    }
    uint64_t max_flow(uint16_t source, uint16_t sink, std::vector<uint8_t>& side) {
        std::vector<uint8_t> reached(nodes);
        std::vector<Reach> queue;
        queue.reserve(nodes);
        std::fill(flow.begin(), flow.end(), 0);
        while (find(reached, queue, source, sink)) {
            size_t place = queue.size() - 1;
            uint32_t amount = queue[place].room;
            while (place) {
                Reach r = queue[place];
                if (r.along) flow[r.arc] += amount; else flow[r.arc] -= amount;
                place = r.before;
            }
        }
        uint64_t out = 0, in = 0;
        for (uint32_t n = first_out[source]; n; n = next_out[n - 1]) out += flow[n - 1];
        for (uint32_t n = first_in[source]; n; n = next_in[n - 1]) in += flow[n - 1];
        side = std::move(reached);
        return out - in;
    }
};
