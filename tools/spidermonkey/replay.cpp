// Replays a trace (docs/TRACE.md) on SpiderMonkey. The trace is read from standard input.
//
//   replay [--no-gray-barrier]
//
// It answers each line as `gczone run` does, but for the reports of a collection: as each sweep group ends, when the
// engine has marked and swept nothing yet, it writes
//
//   ended ZONES gray LIST   the group's zones, and the gray names of its cells
//   dead LIST               the names of the group's cells that die
//   outside gray LIST       the gray names in zones that are not marking, without those of the group
//   marking black LIST      the black names in zones that are still marking
//
// and `done` when the collection is over. `slice N` gives the engine a budget of N of its own units of work, and its
// reply is `slice ?`. `until Z`, which is no command of the language, does small slices until a group with zone Z has
// ended.
//
// The engine reads gray slots when a group begins gray marking, and asks its embedder for barriers (version 78 buffers
// them as a collection begins). So a cell that is taken out of a gray slot while a zone is marking stays a gray root of
// that collection, unless --no-gray-barrier is given.

#include <unistd.h>

#include <algorithm>
#include <array>
#include <cstdio>
#include <iostream>
#include <sstream>
#include <stdexcept>
#include <vector>

#include "cells.h"
#include "js/Array.h"
#include "js/CallAndConstruct.h"
#include "js/Class.h"
#include "js/GCAPI.h"
#include "js/HeapAPI.h"
#include "js/Initialization.h"
#include "js/Object.h"
#include "js/Proxy.h"
#include "js/SliceBudget.h"
#include "js/SweepingAPI.h"
#include "js/WeakMap.h"
#include "js/Wrapper.h"
#include "js/shadow/Zone.h"
#include "jsapi.h"
#include "jsfriendapi.h"

namespace {

constexpr size_t ZONE_LIMIT = 64;
constexpr size_t COMPARTMENT_LIMIT = 256;
constexpr size_t REGISTERS = 16;
constexpr size_t GRAY_SLOTS = 64;
constexpr size_t FIELDS = 8;
constexpr size_t REGISTRY_SLOT = FIELDS;
// An endless budget is not incremental and puts all zones into one group; this one is never used up.
constexpr int64_t AMPLE = int64_t(1) << 40;
// The smallest budget with which the engine gets ahead.
constexpr int64_t SMALL = 2;
constexpr useconds_t PAUSE = 20;

class BadLine : public std::runtime_error {
 public:
  using std::runtime_error::runtime_error;
};

void check(bool done, const char* what) {
  if (!done) {
    throw std::runtime_error(std::string("the engine failed: ") + what);
  }
}

bool is_gray(const Cell& cell) {
  return js::gc::detail::TenuredCellIsMarkedGray(reinterpret_cast<js::gc::TenuredCell*>(cell.object));
}

bool is_black(const Cell& cell) {
  return js::gc::detail::TenuredCellIsMarkedBlack(reinterpret_cast<js::gc::TenuredCell*>(cell.object));
}

// A finalizer knows its object alone, so each object knows the registry.
void finalize_object(JS::GCContext*, JSObject* object) {
  JS::GetMaybePtrFromReservedSlot<Registry>(object, REGISTRY_SLOT)->take_finalized(object);
}

constexpr JSClassOps operations_with(JSFinalizeOp finalize) {
  JSClassOps operations{};
  operations.finalize = finalize;
  return operations;
}

constexpr JSClass class_with(const char* name, uint32_t flags, const JSClassOps* operations) {
  return JSClass{name, flags, operations, nullptr, nullptr, nullptr};
}

constexpr JSClassOps OBJECT_OPERATIONS = operations_with(finalize_object);
constexpr JSClass OBJECT_CLASS =
    class_with("Cell", JSCLASS_HAS_RESERVED_SLOTS(FIELDS + 1) | JSCLASS_FOREGROUND_FINALIZE, &OBJECT_OPERATIONS);
// The engine names its operations in its library, so this class is no constant of ours.
const JSClass GLOBAL_CLASS = class_with("Global", JSCLASS_GLOBAL_FLAGS, &JS::DefaultGlobalClassOps);

// Wrappers that tell their end.
class TellingWrapper : public js::CrossCompartmentWrapper {
 public:
  explicit TellingWrapper(Registry& registry) : js::CrossCompartmentWrapper(0), registry_(registry) {}
  void finalize(JS::GCContext*, JSObject* proxy) const override { registry_.take_finalized(proxy); }
  bool finalizeInBackground(const JS::Value&) const override { return false; }

 private:
  Registry& registry_;
};

class Library {
 public:
  Library() { check(JS_Init(), "to start"); }
  ~Library() { JS_ShutDown(); }
  Library(const Library&) = delete;
};

class Context {
 public:
  Context() : own_(JS_NewContext(UINT32_MAX)) {
    check(own_ && JS::InitSelfHostedCode(own_), "to make a context");
    JS_SetGCParameter(own_, JSGC_MAX_BYTES, UINT32_MAX);
    JS_SetGCParameter(own_, JSGC_INCREMENTAL_GC_ENABLED, 1);
    // Otherwise each collection takes all zones.
    JS_SetGCParameter(own_, JSGC_PER_ZONE_GC_ENABLED, 1);
    JS_SetGCParameter(own_, JSGC_COMPACTING_ENABLED, 0);
    // No collection begins by itself.
    JS_SetGCParameter(own_, JSGC_ALLOCATION_THRESHOLD, 1000);
  }
  ~Context() { JS_DestroyContext(own_); }
  Context(const Context&) = delete;
  operator JSContext*() const { return own_; }

 private:
  JSContext* own_;
};

// The words of a line, read by place.
class Words {
 public:
  explicit Words(const std::string& line) {
    std::istringstream text(line);
    for (std::string word; text >> word;) {
      words_.push_back(word);
    }
  }
  bool is_empty() const { return words_.empty(); }
  size_t size() const { return words_.size(); }
  const std::string& at(size_t place) const {
    if (place >= words_.size()) {
      throw BadLine("a word is missing");
    }
    return words_[place];
  }
  size_t number(size_t place) const { return number_in(at(place)); }
  size_t lettered(size_t place, size_t limit) const {
    size_t number = number_in(at(place).substr(1));
    if (number >= limit) {
      throw BadLine("'" + at(place) + "' is out of range");
    }
    return number;
  }

 private:
  static size_t number_in(const std::string& digits) {
    if (digits.empty() || digits.size() > 10 || digits.find_first_not_of("0123456789") != std::string::npos) {
      throw BadLine("'" + digits + "' is no number");
    }
    return std::stoull(digits);
  }
  std::vector<std::string> words_;
};

struct Zone {
  JS::Zone* own = nullptr;  // none until its first compartment
  size_t global = 0;
  JS::shadow::Zone* state() const { return JS::shadow::Zone::from(own); }
};

class Replay {
 public:
  Replay(JSContext* context, bool has_gray_barrier);
  ~Replay();
  Replay(const Replay&) = delete;
  std::string answer(const Words& words);

 private:
  using Command = std::string (Replay::*)(const Words&);
  static const std::map<std::string, Command>& commands();

  // Commands on the graph.
  std::string make_zone(const Words& words);
  std::string make_compartment(const Words& words);
  std::string make_object(const Words& words);
  std::string make_map(const Words& words);
  std::string get(const Words& words);
  std::string set(const Words& words);
  std::string wrap(const Words& words);
  std::string unwrap(const Words& words);
  std::string copy(const Words& words);
  std::string drop(const Words& words);
  std::string hold(const Words& words);
  std::string release(const Words& words);
  std::string expose(const Words& words);
  std::string put(const Words& words);
  std::string remove(const Words& words);
  std::string find(const Words& words);

  // Commands on collections.
  std::string begin(const Words& words);
  std::string slice(const Words& words);
  std::string finish(const Words& words);
  std::string collect(const Words& words);
  std::string until(const Words& words);
  std::string colours(const Words& words);

  // What the commands are made of.
  JS::PersistentRootedObject& reg(const Words& words, size_t place);
  JSObject*& gray_slot(const Words& words, size_t place);
  void set_gray_slot(JSObject*& slot, JSObject* value);
  std::string name_or_null(JSObject* object) const;
  std::string refusal_of_field(const Words& words, size_t place) const;
  std::string refusal_of_entry(const std::vector<JSObject*>& map_key_value) const;
  Name take_number() { return Name{{}, made_++}; }
  void add(const Name& name, const Cell& cell);

  std::string refusal_to_begin(const Words& words) const;
  void start(const Words& words, int64_t budget);
  void do_slice(int64_t budget);
  void do_all();
  bool is_running() const { return JS::IsIncrementalGCInProgress(context_); }
  bool is_marking(size_t zone) const;
  bool is_any_marking() const;
  bool is_any_waiting() const;
  std::set<size_t> ending_zones() const;
  void write_done();

  // Called back by the engine.
  static bool trace_gray_slots(JSTracer* tracer, js::SliceBudget&, void* replay);
  static void end_group(JSTracer* tracer, void* replay);
  static JSObject* make_wrapper(JSContext* context, JS::HandleObject existing, JS::HandleObject target);
  void report_group(JSTracer* tracer, const std::set<size_t>& group);

  JSContext* context_;
  const bool has_gray_barrier_;
  Registry registry_;
  TellingWrapper wrapper_handler_;
  std::array<JS::PersistentRootedObject, REGISTERS> registers_;
  std::array<JSObject*, GRAY_SLOTS> gray_slots_{};
  std::vector<JSObject*> taken_out_;  // of gray slots while a zone is marking
  JS::PersistentRooted<JS::GCVector<JSObject*, 0, js::SystemAllocPolicy>> globals_;
  std::vector<size_t> zone_of_;  // by compartment
  std::vector<Zone> zones_;
  uint64_t made_ = 0;
  bool is_collecting_ = false;
  std::set<size_t> collected_;  // the zones of the collection
  std::set<size_t> ended_;      // those of them whose group has ended
};

Replay::Replay(JSContext* context, bool has_gray_barrier)
    : context_(context), has_gray_barrier_(has_gray_barrier), wrapper_handler_(registry_), globals_(context) {
  for (JS::PersistentRootedObject& each : registers_) {
    each.init(context);
  }
  static constexpr JSWrapObjectCallbacks WRAP_CALLBACKS = {make_wrapper, nullptr};
  JS_SetContextPrivate(context, this);
  JS_SetWrapObjectCallbacks(context, &WRAP_CALLBACKS);
  JS_SetGrayGCRootsTracer(context, trace_gray_slots, this);
  check(JS_AddWeakPointerZonesCallback(context, end_group, this), "to take a callback");
  JS_GC(context);
}

Replay::~Replay() {
  JS_RemoveWeakPointerZonesCallback(context_, end_group);
  JS_SetGrayGCRootsTracer(context_, nullptr, nullptr);
  if (is_running()) {
    JS::PrepareForIncrementalGC(context_);
    JS::FinishIncrementalGC(context_, JS::GCReason::API);
  }
  // The finalizers of what is left look for the registry.
  for (JS::PersistentRootedObject& each : registers_) {
    each.reset();
  }
  globals_.clear();
  JS_GC(context_);
}

const std::map<std::string, Replay::Command>& Replay::commands() {
  static const std::map<std::string, Command> table = {
      {"zone", &Replay::make_zone},   {"comp", &Replay::make_compartment}, {"new", &Replay::make_object},
      {"map", &Replay::make_map},     {"get", &Replay::get},               {"set", &Replay::set},
      {"wrap", &Replay::wrap},        {"unwrap", &Replay::unwrap},         {"copy", &Replay::copy},
      {"drop", &Replay::drop},        {"hold", &Replay::hold},             {"release", &Replay::release},
      {"expose", &Replay::expose},    {"put", &Replay::put},               {"del", &Replay::remove},
      {"find", &Replay::find},        {"gc", &Replay::begin},              {"slice", &Replay::slice},
      {"finish", &Replay::finish},    {"collect", &Replay::collect},       {"until", &Replay::until},
      {"colours", &Replay::colours},
  };
  return table;
}

std::string Replay::answer(const Words& words) {
  auto found = commands().find(words.at(0));
  if (found == commands().end()) {
    throw BadLine("'" + words.at(0) + "' is no command");
  }
  return (this->*found->second)(words);
}

// The commands on the graph: each in the order of its refusals.

std::string Replay::make_zone(const Words&) {
  if (zones_.size() == ZONE_LIMIT) {
    return "full";
  }
  zones_.emplace_back();
  return "zone " + std::to_string(zones_.size() - 1);
}

std::string Replay::make_compartment(const Words& words) {
  size_t number = words.number(1);
  if (number >= zones_.size()) {
    return "no-zone";
  }
  if (zone_of_.size() == COMPARTMENT_LIMIT) {
    return "full";
  }
  Zone& zone = zones_[number];
  JS::RealmOptions options;
  if (zone.own) {
    options.creationOptions().setNewCompartmentInExistingZone(globals_[zone.global]);
  } else {
    options.creationOptions().setNewCompartmentAndZone();
  }
  JSObject* global = JS_NewGlobalObject(context_, &GLOBAL_CLASS, nullptr, JS::DontFireOnNewGlobalHook, options);
  check(global && globals_.append(global), "to make a compartment");
  if (!zone.own) {
    zone = Zone{JS::GetObjectZone(global), zone_of_.size()};
  }
  zone_of_.push_back(number);
  return "comp " + std::to_string(zone_of_.size() - 1);
}

std::string Replay::make_object(const Words& words) {
  size_t compartment = words.number(2);
  if (compartment >= zone_of_.size()) {
    return "no-comp";
  }
  JSAutoRealm realm(context_, globals_[compartment]);
  JSObject* object = JS_NewObjectWithGivenProto(context_, &OBJECT_CLASS, nullptr);
  check(object, "to make an object");
  JS::SetReservedSlot(object, REGISTRY_SLOT, JS::PrivateValue(&registry_));
  for (size_t field = 0; field < FIELDS; field++) {
    JS::SetReservedSlot(object, field, JS::NullValue());
  }
  Name name = take_number();
  add(name, Cell{object, Kind::Object, compartment, words.number(3)});
  reg(words, 1) = object;
  return "cell " + name.text();
}

std::string Replay::make_map(const Words& words) {
  size_t compartment = words.number(2);
  if (compartment >= zone_of_.size()) {
    return "no-comp";
  }
  JSAutoRealm realm(context_, globals_[compartment]);
  JSObject* object = JS::NewWeakMapObject(context_);
  check(object, "to make a map");
  Name name = take_number();
  add(name, Cell{object, Kind::Map, compartment, 0});
  reg(words, 1) = object;
  return "cell " + name.text();
}

std::string Replay::get(const Words& words) {
  std::string refusal = refusal_of_field(words, 2);
  if (!refusal.empty()) {
    return refusal;
  }
  JSObject* held = JS::GetReservedSlot(reg(words, 2), words.number(3)).toObjectOrNull();
  reg(words, 1) = held;
  return name_or_null(held);
}

std::string Replay::set(const Words& words) {
  JSObject* value = nullptr;
  if (words.at(3) != "-") {
    value = reg(words, 3);
    if (!reg(words, 1) || !value) {
      return "empty";
    }
  }
  std::string refusal = refusal_of_field(words, 1);
  if (!refusal.empty()) {
    return refusal;
  }
  if (value && registry_.cell_of(value).compartment != registry_.cell_of(reg(words, 1)).compartment) {
    return "cross";
  }
  JS::SetReservedSlot(reg(words, 1), words.number(2), JS::ObjectOrNullValue(value));
  return "ok";
}

std::string Replay::wrap(const Words& words) {
  JSObject* held = reg(words, 2);
  if (!held) {
    return "empty";
  }
  size_t compartment = words.number(3);
  if (compartment >= zone_of_.size()) {
    return "no-comp";
  }
  JSAutoRealm realm(context_, globals_[compartment]);
  JS::RootedObject seen(context_, held);
  check(JS_WrapObject(context_, &seen), "to wrap an object");
  if (!registry_.find(seen)) {
    JSObject* target = js::UncheckedUnwrapWithoutExpose(seen);
    add(Name{compartment, registry_.name_of(target).number}, Cell{seen, Kind::Wrapper, compartment, 0});
  }
  reg(words, 1) = seen;
  return registry_.name_of(seen).text();
}

std::string Replay::unwrap(const Words& words) {
  JSObject* held = reg(words, 2);
  if (!held) {
    return "empty";
  }
  if (registry_.cell_of(held).kind != Kind::Wrapper) {
    return "kind";
  }
  reg(words, 1) = js::UncheckedUnwrap(held);
  return registry_.name_of(reg(words, 1)).text();
}

std::string Replay::copy(const Words& words) {
  reg(words, 1) = reg(words, 2).get();
  return "ok";
}

std::string Replay::drop(const Words& words) {
  reg(words, 1) = nullptr;
  return "ok";
}

std::string Replay::hold(const Words& words) {
  set_gray_slot(gray_slot(words, 1), reg(words, 2));
  return "ok";
}

std::string Replay::release(const Words& words) {
  set_gray_slot(gray_slot(words, 1), nullptr);
  return "ok";
}

std::string Replay::expose(const Words& words) {
  JSObject* held = gray_slot(words, 2);
  if (held) {
    JS::ExposeObjectToActiveJS(held);
  }
  reg(words, 1) = held;
  return name_or_null(held);
}

std::string Replay::put(const Words& words) {
  JS::PersistentRootedObject &map = reg(words, 1), &key = reg(words, 2);
  std::string refusal = refusal_of_entry({map, key, reg(words, 3)});
  if (!refusal.empty()) {
    return refusal;
  }
  JSAutoRealm realm(context_, map);
  JS::RootedValue value(context_, JS::ObjectValue(*reg(words, 3)));
  check(JS::SetWeakMapEntry(context_, map, key, value), "to set an entry");
  return "ok";
}

std::string Replay::remove(const Words& words) {
  JS::PersistentRootedObject &map = reg(words, 1), &key = reg(words, 2);
  std::string refusal = refusal_of_entry({map, key});
  if (!refusal.empty()) {
    return refusal;
  }
  JSAutoRealm realm(context_, map);
  JS::RootedValue wanted(context_, JS::ObjectValue(*key)), removed(context_);
  check(JS_CallFunctionName(context_, map, "delete", JS::HandleValueArray(wanted), &removed), "to remove an entry");
  return removed.isTrue() ? "ok" : "absent";
}

std::string Replay::find(const Words& words) {
  JS::PersistentRootedObject &map = reg(words, 2), &key = reg(words, 3);
  std::string refusal = refusal_of_entry({map, key});
  if (!refusal.empty()) {
    return refusal;
  }
  JSAutoRealm realm(context_, map);
  JS::RootedValue value(context_);
  check(JS::GetWeakMapEntry(context_, map, key, &value), "to find an entry");
  JSObject* found = value.isObject() ? &value.toObject() : nullptr;
  reg(words, 1) = found;
  return name_or_null(found);
}

JS::PersistentRootedObject& Replay::reg(const Words& words, size_t place) {
  return registers_[words.lettered(place, REGISTERS)];
}

JSObject*& Replay::gray_slot(const Words& words, size_t place) {
  return gray_slots_[words.lettered(place, GRAY_SLOTS)];
}

void Replay::set_gray_slot(JSObject*& slot, JSObject* value) {
  if (has_gray_barrier_ && slot && is_running() && is_any_marking()) {
    taken_out_.push_back(slot);
  }
  slot = value;
}

std::string Replay::name_or_null(JSObject* object) const {
  return object ? registry_.name_of(object).text() : "null";
}

// Why the field named after the register at this place cannot be used, or nothing.
std::string Replay::refusal_of_field(const Words& words, size_t place) const {
  JSObject* held = registers_[words.lettered(place, REGISTERS)];
  if (!held) {
    return "empty";
  }
  const Cell& cell = registry_.cell_of(held);
  if (cell.kind != Kind::Object) {
    return "kind";
  }
  return words.number(place + 1) < cell.fields ? "" : "no-field";
}

// Why these cannot be map and key, and value if there is one, of an entry, or nothing.
std::string Replay::refusal_of_entry(const std::vector<JSObject*>& map_key_value) const {
  if (std::count(map_key_value.begin(), map_key_value.end(), nullptr)) {
    return "empty";
  }
  const Cell& map = registry_.cell_of(map_key_value[0]);
  if (map.kind != Kind::Map) {
    return "kind";
  }
  for (JSObject* each : map_key_value) {
    if (registry_.cell_of(each).compartment != map.compartment) {
      return "cross";
    }
  }
  return "";
}

void Replay::add(const Name& name, const Cell& cell) {
  check(!js::gc::IsInsideNursery(reinterpret_cast<js::gc::Cell*>(cell.object)), "to keep the nursery off");
  registry_.add(name, cell);
}

// The commands on collections.

std::string Replay::begin(const Words& words) {
  std::string refusal = refusal_to_begin(words);
  if (!refusal.empty()) {
    return refusal;
  }
  start(words, 1);
  while (is_running() && is_any_waiting()) {
    usleep(PAUSE);
    do_slice(1);
  }
  return "gc ok";
}

std::string Replay::collect(const Words& words) {
  std::string refusal = refusal_to_begin(words);
  if (!refusal.empty()) {
    return refusal;
  }
  start(words, AMPLE);
  do_all();
  return "collected";
}

std::string Replay::slice(const Words& words) {
  if (!is_collecting_) {
    return "idle";
  }
  if (is_running() && words.number(1) > 0) {
    do_slice(words.number(1));
  }
  write_done();
  return "slice ?";
}

std::string Replay::finish(const Words&) {
  if (!is_collecting_) {
    return "idle";
  }
  do_all();
  return "slice ?";
}

std::string Replay::until(const Words& words) {
  while (is_running() && ended_.count(words.number(1)) == 0) {
    usleep(PAUSE);
    do_slice(SMALL);
  }
  write_done();
  return "slice ?";
}

std::string Replay::colours(const Words&) {
  if (is_any_marking()) {
    return "marking";
  }
  std::set<Name> gray;
  for (const auto& [name, cell] : registry_.present()) {
    if (is_gray(cell)) {
      gray.insert(name);
    }
  }
  return "gray " + list(gray);
}

std::string Replay::refusal_to_begin(const Words& words) const {
  if (is_collecting_) {
    return "running";
  }
  for (size_t place = 1; place < words.size(); place++) {
    if (words.number(place) >= zones_.size()) {
      return "no-zone";
    }
  }
  return "";
}

void Replay::start(const Words& words, int64_t budget) {
  is_collecting_ = true;
  bool has_zone = false;
  for (size_t place = 1; place < words.size(); place++) {
    size_t number = words.number(place);
    collected_.insert(number);
    if (zones_[number].own) {
      has_zone = true;
      JS::PrepareZoneForGC(context_, zones_[number].own);
    }
  }
  if (has_zone) {
    js::SliceBudget work{js::WorkBudget(budget)};
    JS::StartIncrementalGC(context_, JS::GCOptions::Normal, JS::GCReason::API, work);
  }
}

void Replay::do_slice(int64_t budget) {
  JS::PrepareForIncrementalGC(context_);
  js::SliceBudget work{js::WorkBudget(budget)};
  JS::IncrementalGCSlice(context_, JS::GCReason::API, work);
}

void Replay::do_all() {
  while (is_running()) {
    do_slice(AMPLE);
    // Helper threads sweep, and are waited for.
    if (is_running() && !JS::IncrementalGCHasForegroundWork(context_)) {
      usleep(PAUSE);
    }
  }
  write_done();
}

bool Replay::is_marking(size_t zone) const {
  if (!zones_[zone].own) {
    return collected_.count(zone) && !ended_.count(zone);
  }
  JS::shadow::Zone* state = zones_[zone].state();
  return state->isGCMarking() || state->isGCPreparing();
}

bool Replay::is_any_marking() const {
  return std::any_of(collected_.begin(), collected_.end(), [this](size_t zone) { return is_marking(zone); });
}

// Whether a zone of the collection has not begun to mark.
bool Replay::is_any_waiting() const {
  return std::any_of(collected_.begin(), collected_.end(), [this](size_t zone) {
    JS::shadow::Zone* state = zones_[zone].own ? zones_[zone].state() : nullptr;
    return state && (state->isGCPreparing() || !state->wasGCStarted());
  });
}

std::set<size_t> Replay::ending_zones() const {
  std::set<size_t> ending;
  for (size_t zone : collected_) {
    if (zones_[zone].own && ended_.count(zone) == 0 && zones_[zone].state()->isGCSweeping()) {
      ending.insert(zone);
    }
  }
  return ending;
}

// Ends the collection, if the engine is done with it.
void Replay::write_done() {
  if (!is_collecting_ || is_running()) {
    return;
  }
  // Without a compartment there is no zone in the engine.
  for (size_t zone : collected_) {
    if (ended_.count(zone) == 0) {
      std::cout << "ended " << zone << " gray -\ndead -\n";
    }
  }
  if (registry_.unfinalized() + registry_.unforeseen() > 0) {
    std::cout << "finalizers: " << registry_.unfinalized() << " missing, " << registry_.unforeseen() << " unforeseen\n";
  }
  std::cout << "done\n";
  taken_out_.clear();
  collected_.clear();
  ended_.clear();
  is_collecting_ = false;
}

// What the engine calls.

bool Replay::trace_gray_slots(JSTracer* tracer, js::SliceBudget&, void* replay) {
  Replay& own = *static_cast<Replay*>(replay);
  auto trace = [tracer](JSObject*& slot) {
    if (slot) {
      js::UnsafeTraceManuallyBarrieredEdge(tracer, &slot, "gray slot");
    }
  };
  std::for_each(own.gray_slots_.begin(), own.gray_slots_.end(), trace);
  std::for_each(own.taken_out_.begin(), own.taken_out_.end(), trace);
  return true;
}

JSObject* Replay::make_wrapper(JSContext* context, JS::HandleObject, JS::HandleObject target) {
  Replay& own = *static_cast<Replay*>(JS_GetContextPrivate(context));
  return js::Wrapper::New(context, target, &own.wrapper_handler_);
}

// The engine's weak pointers are updated once a group has been marked, and before it is swept.
void Replay::end_group(JSTracer* tracer, void* replay) {
  Replay& own = *static_cast<Replay*>(replay);
  std::set<size_t> group = own.ending_zones();
  if (!group.empty()) {
    own.report_group(tracer, group);
    own.ended_.merge(group);
  }
}

void Replay::report_group(JSTracer* tracer, const std::set<size_t>& group) {
  std::set<Name> gray, dead, gray_outside, black_marking;
  for (const auto& [name, cell] : registry_.present()) {
    size_t zone = zone_of_[cell.compartment];
    if (group.count(zone)) {
      JSObject* left = cell.object;
      JS_UpdateWeakPointerAfterGCUnbarriered(tracer, &left);
      if (!left) {
        dead.insert(name);
      } else if (is_gray(cell)) {
        gray.insert(name);
      }
    } else if (is_marking(zone)) {
      if (is_black(cell)) {
        black_marking.insert(name);
      }
    } else if (is_gray(cell)) {
      gray_outside.insert(name);
    }
  }
  for (const Name& name : dead) {
    registry_.bury(name);
  }
  std::cout << "ended";
  for (size_t zone : group) {
    std::cout << ' ' << zone;
  }
  std::cout << " gray " << list(gray) << "\ndead " << list(dead) << "\noutside gray " << list(gray_outside)
            << "\nmarking black " << list(black_marking) << '\n';
}

int answer_all(Replay& replay) {
  size_t number = 0;
  for (std::string line; std::getline(std::cin, line);) {
    number++;
    try {
      std::cout << replay.answer(Words(line)) << '\n';
    } catch (const BadLine& fault) {
      std::cout.flush();
      std::cerr << "replay: bad line " << number << ": " << fault.what() << '\n';
      return 3;
    }
  }
  std::cout.flush();
  return std::cout ? 0 : 1;
}

}  // namespace

int main(int count, char** words) {
  std::vector<std::string> options(words + 1, words + count);
  bool has_gray_barrier = options.empty();
  if (!has_gray_barrier && options != std::vector<std::string>{"--no-gray-barrier"}) {
    std::cerr << "usage: replay [--no-gray-barrier] < TRACE\n";
    return 2;
  }
  try {
    Library library;
    Context context;
    JS::AutoDisableGenerationalGC without_nursery(context);
    Replay replay(context, has_gray_barrier);
    return answer_all(replay);
  } catch (const std::exception& fault) {
    std::cout.flush();
    std::cerr << "replay: " << fault.what() << '\n';
    return 1;
  }
}
