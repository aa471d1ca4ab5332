// Times C++ DynamicMessage: decode, with and without an arena, and encode of files of bytes, the least of several turns.
// usage: codec SET FILE..         SET is the descriptor set of codec.proto; a file is named TYPE.NAME.bin.
//        codec SET read FILE      reads the file once.
//        codec SET arena FILE     the same on an arena.
#include <algorithm>
#include <chrono>
#include <cstdio>
#include <fstream>
#include <iterator>
#include <memory>
#include <string>

#include <google/protobuf/arena.h>
#include <google/protobuf/descriptor.h>
#include <google/protobuf/descriptor.pb.h>
#include <google/protobuf/dynamic_message.h>

using google::protobuf::Arena;
using google::protobuf::Message;

namespace {

std::string content(const char* path) {
  std::ifstream file(path, std::ios::binary);
  return std::string((std::istreambuf_iterator<char>(file)), std::istreambuf_iterator<char>());
}

// The name of the file in a path.
std::string file_name(const std::string& path) { return path.substr(path.rfind('/') + 1); }

bool read_once(const Message* prototype, const std::string& bytes) {
  std::unique_ptr<Message> message(prototype->New());
  return message->ParseFromString(bytes);
}

bool read_on_arena(const Message* prototype, const std::string& bytes) {
  Arena arena;
  return prototype->New(&arena)->ParseFromString(bytes);
}

template <typename Work>
double least_microseconds(size_t size, Work work) {
  const int turns = std::max<int>(5, std::min<int>(2000, 2000000 / static_cast<int>(size)));
  double least = 1e12;
  for (int turn = 0; turn < turns; ++turn) {
    const auto begin = std::chrono::steady_clock::now();
    work();
    const std::chrono::duration<double, std::micro> spent = std::chrono::steady_clock::now() - begin;
    least = std::min(least, spent.count());
  }
  return least;
}

}  // namespace

int main(int argc, char** argv) {
  if (argc < 3) return 4;
  google::protobuf::FileDescriptorSet set;
  if (!set.ParseFromString(content(argv[1])) || set.file_size() != 1) return 2;
  google::protobuf::DescriptorPool pool;
  const auto* proto = pool.BuildFile(set.file(0));
  if (proto == nullptr) return 2;
  google::protobuf::DynamicMessageFactory factory;
  const auto prototype_of = [&](const std::string& name) {
    return factory.GetPrototype(proto->FindMessageTypeByName(name.substr(0, name.find('.'))));
  };
  const std::string word(argv[2]);
  if (word == "read" || word == "arena") {
    if (argc < 4) return 4;
    const Message* prototype = prototype_of(file_name(argv[3]));
    const std::string bytes = content(argv[3]);
    const bool is_read = word == "read" ? read_once(prototype, bytes) : read_on_arena(prototype, bytes);
    return is_read ? 0 : 1;
  }
  for (int at = 2; at < argc; ++at) {
    const std::string bytes = content(argv[at]);
    const std::string name = file_name(argv[at]);
    const Message* prototype = prototype_of(name);
    std::unique_ptr<Message> message(prototype->New());
    if (!message->ParseFromString(bytes)) return 1;
    size_t total = 0;
    const double decode = least_microseconds(bytes.size(), [&] { total += read_once(prototype, bytes); });
    const double on_arena = least_microseconds(bytes.size(), [&] { total += read_on_arena(prototype, bytes); });
    const double encode = least_microseconds(bytes.size(), [&] { total += message->SerializeAsString().size(); });
    if (total == 0) return 1;
    std::printf("c++ dynamic message %s: %zu bytes, decode %.2f us, decode on an arena %.2f us, encode %.2f us\n", name.c_str(),
                bytes.size(), decode, on_arena, encode);
  }
  return 0;
}
