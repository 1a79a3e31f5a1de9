// Lists of fields as random programs (program.h) send them.
#ifndef PROGRAM_LISTS_H
#define PROGRAM_LISTS_H
#include <h3.h>

#include <algorithm>
#include <string>
#include <vector>

#include "choices.h"

namespace {

// ---- lists ----

struct Field {
  std::string name, value;
  bool never_indexed = false;
  bool operator==(const Field &other) const { return name == other.name && value == other.value && never_indexed == other.never_indexed; }
};
using FieldList = std::vector<Field>;

// as a side with this configuration sends it: of the names here a short cookie is a secret (RFC 9204, section 7.1.3)
FieldList guarded(const h3_config &config, FieldList list) {
  for (Field &field : list)
    if (config.guard_secrets && field.name == "cookie" && field.value.size() < 20) field.never_indexed = true;
  return list;
}

// RFC 9114, section 4.2.2
uint64_t size_of(const FieldList &list) {
  uint64_t size = 0;
  for (const Field &field : list) size += field.name.size() + field.value.size() + 32;
  return size;
}

bool has(const FieldList &list, const std::string &name) {
  return std::any_of(list.begin(), list.end(), [&](const Field &field) { return field.name == name; });
}
bool has_pseudo_field(const FieldList &list) {
  return std::any_of(list.begin(), list.end(), [](const Field &field) { return field.name[0] == ':'; });
}

// the value of the last field of this name
std::string last_value(const FieldList &list, const std::string &name) {
  std::string value;
  for (const Field &field : list)
    if (field.name == name) value = field.value;
  return value;
}

bool is_interim(const FieldList &list) {
  std::string status = last_value(list, ":status");
  return status.size() == 3 && status[0] == '1';
}

const char BAD_NAME[] = "Bad"; // in upper case (RFC 9114, section 4.2)

std::string random_value() {
  static const char *const values[] = {"1", "abc", "text/html", "gzip, br", "", "x y", "2024"};
  if (!one_in(5)) return one_of(values);
  return std::string(below(60), below(2) ? 'a' : '\xf9');
}

// `protocol` is a value of :protocol that both sides take (RFC 9220, section 3)
void add_request(FieldList &list, const char *protocol) {
  static const char *const methods[] = {"GET", "POST", "HEAD", "CONNECT", "PUT"};
  std::string method = one_of(methods);
  bool connects = method == "CONNECT", extends = connects && one_in(3);
  list.push_back({":method", method});
  if (extends) list.push_back({":protocol", protocol});
  if (!connects || extends || one_in(10)) {
    list.push_back({":scheme", "https"});
    if (!one_in(20)) list.push_back({":path", "/"});
  }
  list.push_back({":authority", connects ? "a:1" : "a"});
}

void add_response(FieldList &list) {
  static const char *const statuses[] = {"200", "200", "204", "304", "404", "103", "100", "500"};
  list.push_back({":status", one_of(statuses)});
  if (one_in(40)) list.push_back({":method", "GET"});
}

void add_others(FieldList &list, bool is_trailer) {
  static const char *const names[] = {"x-a", "x-b", "accept", "cookie", "content-type"};
  for (uint32_t count = below(4); count > 0; count--) list.push_back({one_of(names), random_value()});
  if (!is_trailer && one_in(3)) list.push_back({"content-length", std::to_string(below(12))});
  if (one_in(60)) list.push_back({"connection", "close"});
  if (one_in(80)) list.push_back({BAD_NAME, "x"});
  if (one_in(25)) list.push_back({"x-big", std::string(below(900), below(2) ? '\xf9' : 'a')});
  if (list.size() > 1 && one_in(12)) std::swap(list[below(list.size())], list[below(list.size())]);
  for (Field &field : list) field.never_indexed = one_in(8);
}

// early answers to CONNECT and HEAD, and trailers after them
FieldList aimed_list(bool is_server, bool is_trailer) {
  if (is_trailer) return {{"x-t", "1"}};
  if (is_server) return {{":status", one_in(4) ? "404" : "200"}};
  if (!one_in(3)) return {{":method", "CONNECT"}, {":authority", "a:1"}};
  return {{":method", "HEAD"}, {":scheme", "https"}, {":path", "/"}, {":authority", "a"}};
}

FieldList random_list(bool is_server, bool is_trailer, bool is_aimed, const char *protocol) {
  if (is_aimed && !one_in(3)) return aimed_list(is_server, is_trailer);
  FieldList list;
  if (is_trailer && one_in(30)) list.push_back({":status", "200"});
  if (!is_trailer && is_server) add_response(list);
  if (!is_trailer && !is_server) add_request(list, protocol);
  add_others(list, is_trailer);
  return list;
}

} // namespace
#endif
