/* A native program of the module of the page: what the module asks of its host, by calls of the system. tools/native compiles it with the C of
   wabt's wasm2c (module.h, module.c) and with names.h, which has the names of wasm2c. Nothing here is proved. */
#include <errno.h>
#include <signal.h>
#include <string.h>
#include <unistd.h>

#include "module.h"
#include "names.h"
#include "wasm-rt-impl.h"

enum { NO_WORD = -1, LONG_WORD = -2, NO_PROGRAM = 125 };

/* The host of the module: its words and its memory. */
struct HOST {
  int count;
  char **words;
  wasm_rt_memory_t *memory;
};

static unsigned char *at(struct HOST *host, u32 place) { return host->memory->data + place; }

/* Whether so many bytes at a place are in the memory. */
static int is_inside(struct HOST *host, u32 place, u32 n) { return (u64)place + n <= host->memory->size; }

/* What a call gave, or minus the number of its error. */
static u32 moved(ssize_t count) { return count < 0 ? (u32)-errno : (u32)count; }

u32 HOST_read(struct HOST *host, u32 place, u32 n) {
  if (!is_inside(host, place, n)) return (u32)-EFAULT;
  return moved(read(STDIN_FILENO, at(host, place), n));
}

u32 HOST_write(struct HOST *host, u32 place, u32 n) {
  if (!is_inside(host, place, n)) return (u32)-EFAULT;
  return moved(write(STDOUT_FILENO, at(host, place), n));
}

u32 HOST_arg(struct HOST *host, u32 i, u32 place, u32 n) {
  if (i >= (u32)host->count) return (u32)NO_WORD;
  size_t length = strlen(host->words[i]);
  if (length > n || !is_inside(host, place, n)) return (u32)LONG_WORD;
  memcpy(at(host, place), host->words[i], length);
  return (u32)length;
}

int main(int count, char **words) {
  struct HOST host = {count, words, 0};
  INSTANCE its;
  signal(SIGPIPE, SIG_IGN); /* a write that nobody reads fails, and does not end the program */
  wasm_rt_init();
  INIT();
  INSTANTIATE(&its, &host);
  host.memory = MEMORY(&its);
  if (wasm_rt_impl_try() != 0) return NO_PROGRAM;
  return (int)MAIN(&its);
}
