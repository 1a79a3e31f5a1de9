// A server alone, to which one program delivers bytes and from which it pulls: made by h3_config_default, but for what is set here. Whoever
// includes it has `server` and HOLDS.

static uint32_t deliver(uint64_t id, const char *bytes, size_t count) { return h3_deliver(&server, id, bytes, count, NULL); }

static h3_item pull(uint64_t id) {
  h3_item item = {0};
  HOLDS(h3_pull(&server, id, &item) == H3_OK);
  return item;
}

static void make(void) {
  h3_config config;
  h3_config_default(&config);
  config.unfinished_limit = UINT64_MAX; /* so that frames of any length may begin */
  config.server = 1;
  config.webtransport = config.datagram = 1; /* so that sessions are known */
  config.table = 220;
  config.blocked = 2;
  config.strict = 0; /* the head of these rows has no :path */
  HOLDS(h3_new(&server, &config, NULL) == H3_OK);
}
