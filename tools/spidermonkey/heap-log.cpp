// Runs a script in SpiderMonkey, collects, and writes the engine's own dump of its heap to standard output.
//
//   heap-log SCRIPT > LOG
//
// What the script's globals hold is black. Its last value, an object, is held by a gray root alone, so what only that
// one leads to is gray. The script has one function that is not of the language: `foreign()` returns a new object of
// another compartment, which the script sees through a wrapper.

#include <cstdio>
#include <fstream>
#include <iostream>
#include <sstream>
#include <stdexcept>
#include <string>

#include "js/CompilationAndEvaluation.h"
#include "js/Exception.h"
#include "js/GCAPI.h"
#include "js/HeapAPI.h"
#include "js/Initialization.h"
#include "js/PropertyAndElement.h"
#include "js/SliceBudget.h"
#include "js/SourceText.h"
#include "js/Wrapper.h"
#include "js/friend/DumpFunctions.h"
#include "jsapi.h"
#include "jsfriendapi.h"

namespace {

constexpr uint32_t HEAP_LIMIT = 256 << 20;

void check(bool done, const std::string& what) {
  if (!done) {
    throw std::runtime_error(what);
  }
}

const JSClass GLOBAL_CLASS = {"Global", JSCLASS_GLOBAL_FLAGS, &JS::DefaultGlobalClassOps, nullptr, nullptr, nullptr};

class Library {
 public:
  Library() { check(JS_Init(), "the engine does not start"); }
  ~Library() { JS_ShutDown(); }
  Library(const Library&) = delete;
};

class Context {
 public:
  Context() : own_(JS_NewContext(HEAP_LIMIT)) {
    // A script with promises needs a queue of jobs. The jobs are not run.
    check(own_ && js::UseInternalJobQueues(own_) && JS::InitSelfHostedCode(own_), "the engine makes no context");
  }
  ~Context() { JS_DestroyContext(own_); }
  Context(const Context&) = delete;
  operator JSContext*() const { return own_; }

 private:
  JSContext* own_;
};

JSObject* wrap(JSContext* context, JS::HandleObject, JS::HandleObject target) {
  return js::Wrapper::New(context, target, &js::CrossCompartmentWrapper::singleton);
}

constexpr JSWrapObjectCallbacks WRAP_CALLBACKS = {wrap, nullptr};

JSObject* make_global(JSContext* context) {
  JS::RealmOptions options;
  JSObject* made = JS_NewGlobalObject(context, &GLOBAL_CLASS, nullptr, JS::FireOnNewGlobalHook, options);
  check(made, "the engine makes no global object");
  return made;
}

// `foreign()` of a script.
bool make_foreign(JSContext* context, unsigned, JS::Value* values) {
  JS::CallArgs arguments = JS::CallArgsFromVp(0, values);
  auto* other = static_cast<JS::PersistentRootedObject*>(JS_GetContextPrivate(context));
  JS::RootedObject made(context);
  {
    JSAutoRealm realm(context, *other);
    made = JS_NewPlainObject(context);
  }
  if (!made || !JS_WrapObject(context, &made)) {
    return false;
  }
  arguments.rval().setObject(*made);
  return true;
}

bool trace_gray(JSTracer* tracer, js::SliceBudget&, void* root) {
  auto* held = static_cast<JS::Heap<JSObject*>*>(root);
  JS::TraceEdge(tracer, held, "gray root");
  return true;
}

std::string text_of(const char* path) {
  std::ifstream file(path);
  std::stringstream text;
  text << file.rdbuf();
  check(file.good() || file.eof(), std::string(path) + " cannot be read");
  return text.str();
}

// The script's last value, which must be an object.
JSObject* run(JSContext* context, const char* path) {
  std::string text = text_of(path);
  JS::CompileOptions options(context);
  options.setFileAndLine(path, 1);
  JS::SourceText<mozilla::Utf8Unit> source;
  JS::RootedValue last(context);
  bool done = source.init(context, text.c_str(), text.size(), JS::SourceOwnership::Borrowed) &&
              JS::Evaluate(context, options, source, &last);
  check(done, std::string(path) + " fails");
  check(last.isObject(), std::string(path) + " does not end with an object");
  return &last.toObject();
}

void write_log(JSContext* context, const char* path) {
  JS::PersistentRootedObject own(context, make_global(context)), other(context, make_global(context));
  JS_SetContextPrivate(context, &other);
  JS_SetWrapObjectCallbacks(context, &WRAP_CALLBACKS);
  JS::Heap<JSObject*> gray;
  JS_SetGrayGCRootsTracer(context, trace_gray, &gray);
  {
    JSAutoRealm realm(context, own);
    check(JS_DefineFunction(context, own, "foreign", make_foreign, 0, 0), "the engine takes no function");
    gray = run(context, path);
  }
  JS::PrepareForFullGC(context);
  JS::NonIncrementalGC(context, JS::GCOptions::Normal, JS::GCReason::API);
  js::DumpHeap(context, stdout, js::IgnoreNurseryObjects);
  gray = nullptr;
  JS_SetGrayGCRootsTracer(context, nullptr, nullptr);
}

}  // namespace

int main(int count, char** words) {
  if (count != 2) {
    std::cerr << "usage: heap-log SCRIPT > LOG\n";
    return 2;
  }
  try {
    Library library;
    Context context;
    write_log(context, words[1]);
    return std::fflush(stdout) == 0 ? 0 : 1;
  } catch (const std::exception& fault) {
    std::cerr << "heap-log: " << fault.what() << '\n';
    return 1;
  }
}
