/* Obeys a command of its on standard input, as ./its does: example run < SESSION. */
#include <stdio.h>
#include <stdlib.h>
#include <string.h>
#include "its.h"

int main(int argc, char **argv) {
  const char *command = argc > 1 ? argv[1] : "", *number = argc > 2 ? argv[2] : "";
  size_t length = 0, room = 1 << 16, count = 0, got;
  uint8_t *input = malloc(1 << 20), *out = malloc(room), status;
  while (input && (got = fread(input + length, 1, 1 << 20, stdin)) > 0) input = realloc(input, (length += got) + (1 << 20));
  for (;;) {
    if (!input || !out) return ITS_NO_MEMORY;
    status = its_call((const uint8_t *)command, strlen(command), (const uint8_t *)number, strlen(number), input, length, out, room, &count);
    if (status != ITS_TOO_SHORT) break;
    free(out);
    out = malloc(room *= 4);
  }
  return fwrite(out, 1, count, stdout) == count ? status : ITS_TOO_SHORT;
}
