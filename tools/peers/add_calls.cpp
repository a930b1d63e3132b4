// Callers, each on a thread of its own, and counters of the C++ Actor Framework, on its scheduler:
// add_calls CALLERS COUNTERS CALLS wait|future own|both TURNS. A caller calls one counter, or all in turns.
// Prints the microseconds of each turn, from the callers' start to their end.
#include <caf/all.hpp>

#include <chrono>
#include <cstdint>
#include <cstdio>
#include <cstdlib>
#include <string>
#include <thread>
#include <vector>

using namespace caf;

using add_atom = atom_constant<atom("add")>;
using get_atom = atom_constant<atom("get")>;

behavior counter(stateful_actor<int64_t>* self) {
  self->state = 0;
  return {
    [=](add_atom, int64_t number) { return self->state += number; },
    [=](get_atom) { return self->state; },
  };
}

auto add_one(scoped_actor& self, const actor& counter) {
  return self->request(counter, infinite, add_atom::value, int64_t{1});
}

template <class Future>
int64_t answer_of(Future&& future) {
  int64_t answer = 0;
  future.receive([&](int64_t total) { answer = total; }, [](const error&) { std::abort(); });
  return answer;
}

void gather(scoped_actor& self, const actor& counter, size_t calls) {
  std::vector<decltype(add_one(self, counter))> futures;
  futures.reserve(calls);
  for (size_t place = 0; place < calls; ++place)
    futures.push_back(add_one(self, counter));
  for (auto& future : futures)
    answer_of(future);
}

// Answers of more counters are taken as they come, as Erlang's are: one that is asked for by its call is sought behind
// all that came before it, which makes the time grow as the square of the calls. Which call each is of isn't told.
void gather_any(scoped_actor& self, const std::vector<actor>& counters, size_t calls) {
  for (size_t place = 0; place < calls; ++place)
    self->send(counters[place % counters.size()], add_atom::value, int64_t{1});
  size_t taken = 0;
  self->receive_while([&] { return taken < calls; })([&](int64_t) { ++taken; });
}

// Calls the counters in turns.
void call(actor_system& system, const std::vector<actor>& counters, size_t calls, bool waits) {
  scoped_actor self{system};
  if (waits) {
    for (size_t place = 0; place < calls; ++place)
      answer_of(add_one(self, counters[place % counters.size()]));
    return;
  }
  if (counters.size() == 1)
    gather(self, counters[0], calls);
  else
    gather_any(self, counters, calls);
}

int64_t total_of(actor_system& system, const actor& counter) {
  scoped_actor self{system};
  return answer_of(self->request(counter, infinite, get_atom::value));
}

struct crew {
  size_t callers, counters;
};

void take_turn(actor_system& system, crew size, size_t calls, bool waits, bool own) {
  using clock = std::chrono::steady_clock;
  std::vector<actor> counters;
  for (size_t place = 0; place < size.counters; ++place)
    counters.push_back(system.spawn(counter));
  auto begin = clock::now();
  std::vector<std::thread> callers;
  for (size_t caller = 0; caller < size.callers; ++caller) {
    auto called = own ? std::vector<actor>{counters[caller % size.counters]} : counters;
    callers.emplace_back([&system, called, calls, waits] { call(system, called, calls, waits); });
  }
  for (auto& caller : callers)
    caller.join();
  auto took = std::chrono::duration_cast<std::chrono::microseconds>(clock::now() - begin).count();
  int64_t total = 0;
  for (auto& one : counters) {
    total += total_of(system, one);
    anon_send_exit(one, exit_reason::user_shutdown);
  }
  if (total != static_cast<int64_t>(size.callers * calls))
    std::abort();
  std::printf("%lld us\n", static_cast<long long>(took));
}

void caf_main(actor_system& system, const actor_system_config& config) {
  const auto& words = config.remainder;
  auto number = [&](size_t place) { return std::stoul(words.at(place)); };
  crew size{number(0), number(1)};
  for (size_t turn = 0; turn < number(5); ++turn)
    take_turn(system, size, number(2), words.at(3) == "wait", words.at(4) == "own");
}

CAF_MAIN()
