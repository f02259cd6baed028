// Answers a trace of bench/engines.py with SpiderMonkey: an object has as many reserved slots as its cell has fields.
// What a heap needs beside its cells (the names of tools/spidermonkey/replay) is left out here. It writes a line once it
// has collected, and its threads have swept.

#include <algorithm>
#include <array>
#include <cctype>
#include <iostream>
#include <stdexcept>
#include <string>
#include <vector>

#include "js/Class.h"
#include "js/GCAPI.h"
#include "js/Initialization.h"
#include "js/Object.h"
#include "js/WeakMap.h"
#include "js/Wrapper.h"
#include "jsapi.h"
#include "jsfriendapi.h"

namespace {

constexpr int NOT_SERVED = 3;
constexpr size_t REGISTERS = 16;
constexpr size_t FIELDS = 8;
const JSClass GLOBAL_CLASS = {"Global", JSCLASS_GLOBAL_FLAGS, &JS::DefaultGlobalClassOps, nullptr, nullptr, nullptr};

void check(bool done, const char* what) {
  if (!done) {
    throw std::runtime_error(std::string("the engine failed: ") + what);
  }
}

JSObject* make_wrapper(JSContext* context, JS::HandleObject, JS::HandleObject target) {
  return js::Wrapper::New(context, target, &js::CrossCompartmentWrapper::singleton);
}

constexpr JSWrapObjectCallbacks WRAP_CALLBACKS = {make_wrapper, nullptr};

class Library {
 public:
  Library() { check(JS_Init(), "to start"); }
  ~Library() { JS_ShutDown(); }
  Library(const Library&) = delete;
};

class Context {
 public:
  Context() : own_(JS_NewContext(UINT32_MAX)) {
    check(own_ && JS::InitSelfHostedCode(own_), "to make a context");
    JS_SetGCParameter(own_, JSGC_MAX_BYTES, UINT32_MAX);
    JS_SetGCParameter(own_, JSGC_PER_ZONE_GC_ENABLED, 1);
    JS_SetGCParameter(own_, JSGC_COMPACTING_ENABLED, 0);
    JS_SetWrapObjectCallbacks(own_, &WRAP_CALLBACKS);
  }
  ~Context() { JS_DestroyContext(own_); }
  Context(const Context&) = delete;
  operator JSContext*() const { return own_; }

 private:
  JSContext* own_;
};

class Heap {
 public:
  explicit Heap(JSContext* context) : context_(context), globals_(context) {
    for (JS::PersistentRootedObject& each : registers_) {
      each.init(context);
    }
    for (size_t fields = 0; fields <= FIELDS; fields++) {
      classes_[fields] = JSClass{"Cell", uint32_t(JSCLASS_HAS_RESERVED_SLOTS(fields)), nullptr, nullptr, nullptr, nullptr};
    }
  }

  // Whether the line is served.
  bool answer(const std::string& line) {
    size_t end = std::min(line.find(' '), line.size());
    return do_command(line.substr(0, end), numbers_of(line, end));
  }

 private:
  // The numbers of the words from there on, of registers too.
  static std::vector<size_t> numbers_of(const std::string& line, size_t from) {
    std::vector<size_t> numbers;
    for (size_t at = from; at < line.size(); at++) {
      if (!isdigit(line[at])) {
        continue;
      }
      size_t number = 0;
      for (; at < line.size() && isdigit(line[at]); at++) {
        number = 10 * number + size_t(line[at] - '0');
      }
      numbers.push_back(number);
    }
    return numbers;
  }

  bool do_command(const std::string& word, const std::vector<size_t>& numbers) {
    if (word == "new") {
      make(numbers[0], numbers[1], numbers[2]);
    } else if (word == "set") {
      JS::SetReservedSlot(registers_[numbers[0]], numbers[1], JS::ObjectOrNullValue(registers_[numbers[2]]));
    } else if (word == "copy") {
      registers_[numbers[0]] = registers_[numbers[1]].get();
    } else if (word == "drop") {
      registers_[numbers[0]] = nullptr;
    } else if (word == "map") {
      JSAutoRealm realm(context_, globals_[numbers[1]]);
      registers_[numbers[0]] = JS::NewWeakMapObject(context_);
    } else if (word == "put") {
      put(registers_[numbers[0]], registers_[numbers[1]], registers_[numbers[2]]);
    } else if (word == "wrap") {
      wrap(numbers[0], numbers[1], numbers[2]);
    } else if (word == "collect") {
      collect(numbers);
    } else if (word == "comp") {
      make_compartment();
    } else {
      return word == "zone";
    }
    return true;
  }

  // Each compartment has a zone of its own in these traces.
  void make_compartment() {
    JS::RealmOptions options;
    options.creationOptions().setNewCompartmentAndZone();
    JSObject* global = JS_NewGlobalObject(context_, &GLOBAL_CLASS, nullptr, JS::DontFireOnNewGlobalHook, options);
    check(global && globals_.append(global), "to make a compartment");
  }

  void make(size_t into, size_t compartment, size_t fields) {
    JSAutoRealm realm(context_, globals_[compartment]);
    JSObject* object = JS_NewObjectWithGivenProto(context_, &classes_[fields], nullptr);
    check(object, "to make an object");
    for (size_t field = 0; field < fields; field++) {
      JS::SetReservedSlot(object, field, JS::NullValue());
    }
    registers_[into] = object;
  }

  void put(JS::HandleObject map, JS::HandleObject key, JS::HandleObject held) {
    JSAutoRealm realm(context_, map);
    JS::RootedValue value(context_, JS::ObjectValue(*held));
    check(JS::SetWeakMapEntry(context_, map, key, value), "to set an entry");
  }

  void wrap(size_t into, size_t from, size_t compartment) {
    JSAutoRealm realm(context_, globals_[compartment]);
    JS::RootedObject seen(context_, registers_[from]);
    check(JS_WrapObject(context_, &seen), "to wrap an object");
    registers_[into] = seen;
  }

  void collect(const std::vector<size_t>& zones) {
    for (size_t zone : zones) {
      JS::PrepareZoneForGC(context_, JS::GetObjectZone(globals_[zone]));
    }
    JS::NonIncrementalGC(context_, JS::GCOptions::Normal, JS::GCReason::API);
    // A parameter is set once all sweeping is done.
    JS_SetGCParameter(context_, JSGC_COMPACTING_ENABLED, 0);
    std::cout << "collected" << std::endl;
  }

  JSContext* context_;
  std::array<JSClass, FIELDS + 1> classes_;
  std::array<JS::PersistentRootedObject, REGISTERS> registers_;
  JS::PersistentRooted<JS::GCVector<JSObject*, 0, js::SystemAllocPolicy>> globals_;
};

}  // namespace

int main() {
  std::ios::sync_with_stdio(false);
  try {
    Library library;
    Context context;
    JS::AutoDisableGenerationalGC without_nursery(context);
    Heap heap(context);
    for (std::string line; std::getline(std::cin, line);) {
      if (!heap.answer(line)) {
        return NOT_SERVED;
      }
    }
    return 0;
  } catch (const std::exception& fault) {
    std::cerr << "spidermonkey: " << fault.what() << '\n';
    return 1;
  }
}
