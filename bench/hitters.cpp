// HL-HITTERS on Boost, as source documents 000 and 002 describe their implementation: boost::unordered_map for ItemSets, Boost
// intrusive lists with pools of nodes for Counts and QItems, a std::vector for Ranges. The arrival rule is ours, not Prince.
#include "rivals.h"
#include <boost/intrusive/list.hpp>
#include <boost/unordered_map.hpp>
#include <cstring>
#include <vector>

namespace bi = boost::intrusive;

namespace {

struct CountNode;

using Link = bi::link_mode<bi::normal_link>;

// An item of the queue, which is no part of HL-HITTERS itself.
struct Item {
    bi::list_member_hook<Link> hook;
    std::uint32_t id, ticket;
};

using Queue = bi::list<Item, bi::member_hook<Item, bi::list_member_hook<Link>, &Item::hook>, bi::constant_time_size<true>>;

// A node of QItems: a reference to an item in the queue.
struct QItem {
    bi::list_member_hook<Link> hook;
    Item *item;
};

using QItems = bi::list<QItem, bi::member_hook<QItem, bi::list_member_hook<Link>, &QItem::hook>, bi::constant_time_size<false>>;

struct CountNode {
    bi::list_member_hook<Link> hook;
    std::uint32_t id;
    std::size_t count;
    QItems items;
};

using Counts = bi::list<CountNode, bi::member_hook<CountNode, bi::list_member_hook<Link>, &CountNode::hook>, bi::constant_time_size<false>>;

struct CountRange {
    CountNode *first = nullptr, *last = nullptr;
};

// Nodes made beforehand: the last one given back is the first one taken.
template <class Node> class Pool {
  public:
    explicit Pool(std::size_t n) : nodes(n) {
        for (Node &node : nodes) {
            unused.push_back(&node);
        }
    }
    Node *take() {
        Node *node = unused.back();
        unused.pop_back();
        return node;
    }
    void give_back(Node *node) { unused.push_back(node); }

  private:
    std::vector<Node> nodes;
    std::vector<Node *> unused;
};

} // namespace

struct hitters {
    // The hash table has room for twice the itemsets that there can be: the papers keep its load low.
    explicit hitters(std::size_t q) : places(q), item_pool(q), qitem_pool(q), node_pool(q), ranges(q + 1) { item_sets.reserve(2 * q); }
    ~hitters() {
        for (CountNode &cn : counts) {
            cn.items.clear();
        }
        counts.clear();
        queue.clear();
    }

    std::size_t places;
    Pool<Item> item_pool;
    Pool<QItem> qitem_pool;
    Pool<CountNode> node_pool;
    Queue queue;
    Counts counts;
    std::vector<CountRange> ranges;
    boost::unordered_map<std::uint32_t, CountNode *> item_sets;

    // Algorithm 2's range operations: the first end takes what enters.
    void range_insert(CountNode *cn) {
        CountRange &range = ranges[cn->count];
        range.first = cn;
        if (range.last == nullptr) {
            range.last = cn;
        }
    }
    void range_remove(CountNode *cn) {
        CountRange &range = ranges[cn->count];
        if (range.first == range.last) {
            range = CountRange();
        } else if (range.first == cn) {
            range.first = &*std::next(counts.iterator_to(*cn));
        } else if (range.last == cn) {
            range.last = &*std::prev(counts.iterator_to(*cn));
        }
    }

    // Algorithm 2.
    void append(Item *item) {
        QItem *q = qitem_pool.take();
        q->item = item;
        CountNode *cn = find(item->id);
        if (cn != nullptr) {
            auto next = std::next(counts.iterator_to(*ranges[cn->count].last));
            range_remove(cn);
            counts.erase(counts.iterator_to(*cn));
            cn->count++;
            cn->items.push_back(*q);
            counts.insert(next, *cn);
            range_insert(cn);
            return;
        }
        cn = node_pool.take();
        cn->id = item->id;
        cn->count = 1;
        cn->items.push_back(*q);
        counts.push_front(*cn);
        range_insert(cn);
        item_sets.emplace(item->id, cn);
    }

    // Pops an item that is its itemset's oldest or newest: no other one leaves.
    void pop(CountNode *cn, Item *item) {
        QItem &front = cn->items.front(), &back = cn->items.back();
        if (back.item == item) {
            cn->items.pop_back();
            qitem_pool.give_back(&back);
        } else {
            cn->items.pop_front();
            qitem_pool.give_back(&front);
        }
    }

    // Algorithm 3.
    void expire(Item *item) {
        CountNode *cn = find(item->id);
        auto place = counts.iterator_to(*ranges[cn->count].first);
        CountNode *previous = place == counts.begin() ? nullptr : &*std::prev(place);
        range_remove(cn);
        counts.erase(counts.iterator_to(*cn));
        pop(cn, item);
        cn->count--;
        if (cn->count == 0) {
            node_pool.give_back(cn);
            item_sets.erase(item->id);
            return;
        }
        if (previous != nullptr && previous->count == cn->count) {
            counts.insert(counts.iterator_to(*ranges[cn->count].first), *cn);
        } else if (previous != nullptr) {
            counts.insert(std::next(counts.iterator_to(*previous)), *cn);
        } else {
            counts.push_front(*cn);
        }
        range_insert(cn);
    }

    // The queue beside it.
    void join(std::uint32_t id, std::uint32_t ticket) {
        Item *item = item_pool.take();
        item->id = id;
        item->ticket = ticket;
        queue.push_back(*item);
        append(item);
    }
    void leave(Item *item) {
        expire(item);
        queue.erase(queue.iterator_to(*item));
        item_pool.give_back(item);
    }

    CountNode *find(std::uint32_t id) const {
        auto it = item_sets.find(id);
        return it == item_sets.end() ? nullptr : it->second;
    }

    // Our arrival rule.
    unsigned arrive(std::uint32_t id, std::uint32_t ticket) {
        unsigned happened = FLAT_JOINED;
        if (queue.size() == places) {
            CountNode *cn = find(id), &heaviest = counts.back();
            if ((cn == nullptr ? 0 : cn->count) + 1 >= heaviest.count) {
                return FLAT_TURNED;
            }
            leave(heaviest.items.back().item);
            happened = FLAT_EVICTED;
        }
        join(id, ticket);
        return happened;
    }

    unsigned slide(std::uint32_t id, std::uint32_t ticket) {
        unsigned happened = FLAT_JOINED;
        if (queue.size() == places) {
            leave(&queue.front());
            happened = FLAT_PASSED;
        }
        join(id, ticket);
        return happened;
    }

    unsigned serve() {
        if (queue.empty()) {
            return 0;
        }
        leave(&queue.front());
        return FLAT_SERVED;
    }
};

static std::uint32_t number_at(const std::uint8_t *bytes) {
    std::uint32_t x;
    std::memcpy(&x, bytes, sizeof x);
    return x;
}

extern "C" {

hitters *hitters_new(size_t q) { return new hitters(q); }
void hitters_free(hitters *h) { delete h; }

flat_sums hitters_run(hitters *h, const uint8_t *commands, size_t bytes) {
    flat_sums sums = {};
    for (; bytes >= 9; bytes -= 9, commands += 9, sums.done++) {
        std::uint32_t id = number_at(commands + 1), ticket = number_at(commands + 5);
        unsigned happened = commands[0] == 1 ? h->arrive(id, ticket) : commands[0] == 2 ? h->slide(id, ticket) : h->serve();
        sums.joined += commands[0] != 3 && happened != FLAT_TURNED;
        sums.evicted += happened == FLAT_EVICTED;
        sums.turned += happened == FLAT_TURNED;
        sums.passed += happened == FLAT_PASSED;
        sums.served += happened == FLAT_SERVED;
        sums.idle += happened == 0;
    }
    return sums;
}

size_t hitters_heaviest(const hitters *h, uint32_t *out, size_t pairs) {
    size_t n = 0;
    for (auto cn = h->counts.rbegin(); cn != h->counts.rend() && n < pairs; ++cn, n++) {
        out[2 * n] = cn->id;
        out[2 * n + 1] = static_cast<std::uint32_t>(cn->count);
    }
    return n;
}

}
