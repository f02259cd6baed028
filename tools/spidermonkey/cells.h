// The cells of a trace beside the engine's objects that stand for them.
#ifndef CELLS_H
#define CELLS_H

#include <cstdint>
#include <map>
#include <optional>
#include <set>
#include <string>
#include <tuple>

#include "jsapi.h"

// An object or a map is named by its number, a wrapper by its compartment and its target's number.
struct Name {
  std::optional<size_t> compartment;
  uint64_t number;

  bool operator<(const Name& other) const {
    return std::tie(compartment, number) < std::tie(other.compartment, other.number);
  }
  std::string text() const;
};

std::string list(const std::set<Name>& names);

enum class Kind { Object, Map, Wrapper };

struct Cell {
  JSObject* object;
  Kind kind;
  size_t compartment;
  size_t fields;
};

// The cells that are present, and those that a group's end left dead and no finalizer has been called for.
// The engine neither traces nor moves what stands here: compaction is off.
class Registry {
 public:
  void add(const Name& name, const Cell& cell);
  void bury(const Name& name);
  void take_finalized(JSObject* object);

  const std::map<Name, Cell>& present() const { return present_; }
  const Name* find(JSObject* object) const;
  const Name& name_of(JSObject* object) const;
  const Cell& cell_of(JSObject* object) const { return present_.at(name_of(object)); }
  size_t unfinalized() const { return dying_.size(); }
  size_t unforeseen() const { return unforeseen_; }

 private:
  std::map<Name, Cell> present_;
  std::map<JSObject*, Name> names_;
  std::set<JSObject*> dying_;
  size_t unforeseen_ = 0;
};

#endif
