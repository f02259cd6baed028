#include "cells.h"

#include <stdexcept>

std::string Name::text() const {
  std::string own = std::to_string(number);
  return compartment ? std::to_string(*compartment) + ":" + own : own;
}

std::string list(const std::set<Name>& names) {
  std::string text;
  for (const Name& name : names) {
    text += (text.empty() ? "" : " ") + name.text();
  }
  return text.empty() ? "-" : text;
}

void Registry::add(const Name& name, const Cell& cell) {
  if (!present_.emplace(name, cell).second) {
    throw std::logic_error("a second cell is named " + name.text());
  }
  names_.emplace(cell.object, name);
}

void Registry::bury(const Name& name) {
  Cell cell = present_.at(name);
  present_.erase(name);
  names_.erase(cell.object);
  // A map is of a class of the engine's own, which has no finalizer of ours.
  if (cell.kind != Kind::Map) {
    dying_.insert(cell.object);
  }
}

void Registry::take_finalized(JSObject* object) {
  if (dying_.erase(object) == 0) {
    unforeseen_++;
  }
}

const Name* Registry::find(JSObject* object) const {
  auto found = names_.find(object);
  return found == names_.end() ? nullptr : &found->second;
}

const Name& Registry::name_of(JSObject* object) const { return names_.at(object); }
