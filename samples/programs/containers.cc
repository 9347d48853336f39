// Nine containers of the standard library, each of numbers of four types.
#include <cstdio>
#include <deque>
#include <forward_list>
#include <list>
#include <map>
#include <queue>
#include <set>
#include <unordered_map>
#include <unordered_set>
#include <vector>

template <class T> __attribute__((noinline)) long filled() {
    std::vector<T> vector;
    std::deque<T> deque;
    std::list<T> list;
    std::forward_list<T> forward;
    std::set<T> set;
    std::map<T, T> map;
    std::unordered_set<T> hashed;
    std::unordered_map<T, T> pairs;
    std::priority_queue<T> queue;
    for (T n = 0; n < 100; n++) {
        T number = n * 37 % 101;
        vector.push_back(number);
        deque.push_front(number);
        list.push_back(number);
        forward.push_front(number);
        set.insert(number);
        map[number] = n;
        hashed.insert(number);
        pairs[number] = n;
        queue.push(number);
    }
    list.sort();
    forward.reverse();
    long sum = (long)vector[7] * 3 + (long)deque[8] * 5 + (long)list.front() * 7 + (long)forward.front() * 11 + (long)*set.begin() + (long)map[4] * 13;
    return sum + (long)hashed.count(6) * 17 + (long)pairs[9] * 19 + (long)queue.top() * 23;
}

int main() {
    std::printf("%ld %ld %ld %ld\n", filled<long>(), filled<long long>(), filled<unsigned long>(), filled<int>());
}
