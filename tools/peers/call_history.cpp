// Callers, each on a thread of its own, and counters of the C++ Actor Framework, on its scheduler, that leave a history
// for ./check: call_history CALLERS COUNTERS CALLS SEED correct|two_senders|run_twice.
//
// Each caller makes so many random calls, add or get, and waits for some answers, which it adds to a counter. A caller
// writes down what it submits and waits for, and a counter what it runs.
//
// One caller may have a fault, at two calls in a row to one counter. With two_senders each is sent by an actor of its
// own, and the first one sends once the second has its answer. With run_twice the first call is sent again, as by a
// retry after a lost answer.
#include <caf/all.hpp>

#include <cstdint>
#include <cstdio>
#include <map>
#include <random>
#include <string>
#include <thread>
#include <vector>

using namespace caf;
using std::string;
using std::to_string;

using call_atom = atom_constant<atom("call")>;
using leave_atom = atom_constant<atom("leave")>;

struct counted {
  int64_t total = 0;
  std::vector<string> ran;
};

// A call has its caller, its number, what it adds, and how it is written. Its answer has its number and the total.
behavior counter(stateful_actor<counted>* self) {
  return {
    [=](call_atom, int64_t caller, int64_t number, int64_t added, const string& words) -> result<int64_t, int64_t> {
      self->state.total += added;
      self->state.ran.push_back("c" + to_string(caller) + "." + to_string(number) + " " + words);
      return {number, self->state.total};
    },
    [=](leave_atom, const string& name) {
      auto lines = name + " live counter " + to_string(self->state.total) + "\n";
      for (size_t place = 0; place < self->state.ran.size(); ++place)
        lines += name + "." + to_string(place) + " " + self->state.ran[place] + "\n";
      return lines;
    },
  };
}

struct call {
  int64_t number;
  size_t place;
  int64_t added;
  string words; // as its counter writes it
};

// What a caller leaves: its steps, and of each call its counter and its answer.
struct did {
  std::vector<string> steps;
  std::vector<size_t> places;
  std::map<int64_t, int64_t> answers;
};

class caller {
public:
  caller(actor_system& system, int64_t me, const std::vector<actor>& counters, uint64_t seed)
    : system_{system}, self_{system}, me_{me}, counters_{counters}, chance_{seed * 7919 + static_cast<uint64_t>(me)} {
  }

  did call_all(size_t calls, const string& fault) {
    auto planted = below(calls - 1);
    while (did_.places.size() < calls) {
      if (fault != "correct" && did_.places.size() == planted)
        faulty_calls(fault);
      else
        random_call();
    }
    while (due_ > 0)
      take_answer();
    for (auto& sender : senders_)
      sender.join();
    return did_;
  }

private:
  size_t below(size_t most) {
    return chance_() % most;
  }

  void take_answer() {
    self_->receive([&](int64_t number, int64_t total) { did_.answers.emplace(number, total); });
    --due_;
  }

  int64_t wait(int64_t number) {
    did_.steps.push_back("await c" + to_string(me_) + " " + to_string(number));
    while (did_.answers.count(number) == 0)
      take_answer();
    return did_.answers[number];
  }

  // Writes a call down, which isn't sent yet.
  call submit(size_t place, int64_t added, const string& asked, const string& words) {
    did_.steps.push_back("submit c" + to_string(me_) + " a" + to_string(place + 1) + " " + asked);
    did_.places.push_back(place);
    ++due_;
    return {static_cast<int64_t>(did_.places.size()) - 1, place, added, words};
  }

  call add(size_t place, int64_t number) {
    auto words = "add " + to_string(number);
    return submit(place, number, words, words);
  }

  void send(const call& one) {
    self_->send(counters_[one.place], call_atom::value, me_, one.number, one.added, one.words);
  }

  void random_call() {
    auto place = below(counters_.size());
    auto sort = below(10);
    if (sort < 2 && !did_.places.empty()) {
      auto number = static_cast<int64_t>(below(did_.places.size()));
      auto total = wait(number);
      send(submit(place, total, "add @" + to_string(number), "add " + to_string(total)));
    } else if (sort < 4) {
      send(submit(place, 0, "get", "get"));
    } else {
      send(add(place, static_cast<int64_t>(below(9)) + 1));
    }
  }

  // Two calls in a row to one counter, the second of which comes first, or the first of which is sent again.
  void faulty_calls(const string& fault) {
    auto place = below(counters_.size());
    auto first = add(place, 1);
    auto second = add(place, 2);
    auto name = "c" + to_string(me_) + ".";
    if (fault == "two_senders") {
      std::printf("# planted: %s%d is sent after %s%d\n", name.c_str(), static_cast<int>(first.number), name.c_str(),
                  static_cast<int>(second.number));
      send_by_two(first, second);
    } else {
      std::printf("# planted: %s%d is sent twice\n", name.c_str(), static_cast<int>(first.number));
      ++due_;
      for (auto& one : {first, first, second})
        send(one);
    }
  }

  void send_by_two(const call& first, const call& second) {
    actor me{self_};
    auto& system = system_;
    auto counter = counters_[first.place];
    auto number = me_;
    senders_.emplace_back([=, &system] {
      for (auto& one : {second, first}) {
        // Its own sender, which passes the answer on to the caller.
        scoped_actor sender{system};
        sender->request(counter, infinite, call_atom::value, number, one.number, one.added, one.words)
          .receive([&](int64_t answered, int64_t total) { sender->send(me, answered, total); },
                   [](const error&) { std::abort(); });
      }
    });
  }

  actor_system& system_;
  scoped_actor self_;
  int64_t me_;
  std::vector<actor> counters_;
  std::mt19937_64 chance_;
  did did_;
  size_t due_ = 0;
  std::vector<std::thread> senders_;
};

void tell(actor_system& system, const std::vector<did>& callers, const std::vector<actor>& counters) {
  string names;
  for (size_t me = 1; me <= callers.size(); ++me)
    names += " c" + to_string(me);
  for (size_t place = 1; place <= counters.size(); ++place)
    std::printf("actor a%zu counter%s\n", place, names.c_str());
  for (auto& each : callers)
    for (auto& step : each.steps)
      std::printf("%s\n", step.c_str());
  for (size_t me = 0; me < callers.size(); ++me)
    for (auto& [number, total] : callers[me].answers)
      std::printf("c%zu.%lld a%zu = %lld\n", me + 1, static_cast<long long>(number), callers[me].places[number] + 1,
                  static_cast<long long>(total));
  scoped_actor self{system};
  for (size_t place = 0; place < counters.size(); ++place)
    self->request(counters[place], infinite, leave_atom::value, "a" + to_string(place + 1))
      .receive([&](const string& lines) { std::fputs(lines.c_str(), stdout); }, [](const error&) { std::abort(); });
}

void caf_main(actor_system& system, const actor_system_config& config) {
  const auto& words = config.remainder;
  auto number = [&](size_t place) { return std::stoul(words.at(place)); };
  auto callers = number(0), calls = number(2), seed = number(3);
  auto fault = words.at(4);
  std::vector<actor> counters;
  for (size_t place = 0; place < number(1); ++place)
    counters.push_back(system.spawn(counter));
  std::vector<did> all(callers);
  std::vector<std::thread> threads;
  for (size_t me = 0; me < callers; ++me)
    threads.emplace_back([&, me] {
      caller one{system, static_cast<int64_t>(me) + 1, counters, seed};
      all[me] = one.call_all(calls, me == seed % callers ? fault : "correct");
    });
  for (auto& thread : threads)
    thread.join();
  tell(system, all, counters);
  for (auto& one : counters)
    anon_send_exit(one, exit_reason::user_shutdown);
}

CAF_MAIN()
