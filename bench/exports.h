// `before`, where that commit has the crate `exports` and no `host`: its calls take n, k and e, with D 0 and one client, in the place of a
// configuration.
uint8_t exports_encode(size_t n, size_t k, size_t e, const uint8_t *board, size_t board_length, uint8_t s, uint8_t *element,
                       size_t element_length);
uint8_t exports_decode(size_t n, size_t k, size_t e, const uint8_t *servers, size_t servers_length, const uint8_t *elements,
                       size_t elements_length, uint8_t *board, size_t board_length);

static inline uint8_t before_encode(const uint8_t *config, size_t config_length, const uint8_t *board, size_t board_length, uint8_t s,
                                    uint8_t *element, size_t element_length) {
    if (config_length != CODED_CONFIG) abort();
    return exports_encode(config[0], config[1], config[3], board, board_length, s, element, element_length);
}

static inline uint8_t before_decode(const uint8_t *config, size_t config_length, const uint8_t *servers, size_t servers_length,
                                    const uint8_t *elements, size_t elements_length, uint8_t *board, size_t board_length) {
    if (config_length != CODED_CONFIG) abort();
    return exports_decode(config[0], config[1], config[3], servers, servers_length, elements, elements_length, board, board_length);
}
