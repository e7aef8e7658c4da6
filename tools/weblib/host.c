/* What the program its asks of its system, for WebAssembly: words, reads and writes are imports of the module "host", which node
   (tools/lib/node/module.js), the page (tools/page/engine.js) and a native program (native.c) answer. Addresses are given as 32 bits. A negative
   answer of read and write is minus the number of an error of Linux. Nothing here is proved. */
typedef unsigned long long word;
typedef long long whole;
typedef unsigned place32;

enum { INPUT = 0, OUTPUT = 1, EBADF = 9, MOST = 0x40000000 };

#define HOST(name) __attribute__((import_module("host"), import_name(#name)))
HOST(read) extern int host_read(place32 place, unsigned n);
HOST(write) extern int host_write(place32 place, unsigned n);
HOST(arg) extern int host_arg(unsigned i, place32 place, unsigned n);

static int last_error;

/* What a call of C gives for an answer of the host. */
static whole answer(int got) {
  if (got >= 0) return got;
  last_error = -got;
  return -1;
}

static unsigned at_most(word n) { return n < MOST ? (unsigned)n : MOST; }

whole read(int fd, unsigned char *bytes, word n) {
  return answer(fd == INPUT ? host_read((place32)(word)bytes, at_most(n)) : -EBADF);
}

whole write(int fd, const unsigned char *bytes, word n) {
  return answer(fd == OUTPUT ? host_write((place32)(word)bytes, at_most(n)) : -EBADF);
}

int rattle_errno(void) { return last_error; }
void rattle_set_errno(int error) { last_error = error; }

/* The length of word i, whose bytes are in buf; -1 if there is none, -2 if it is longer than buf. */
whole rattle_arg(word i, unsigned char *bytes, word n) {
  return i >> 31 ? -1 : host_arg((unsigned)i, (place32)(word)bytes, at_most(n));
}

/* There is no environment. */
whole rattle_env(const unsigned char *name, unsigned char *bytes, word n) { return -1; }
whole rattle_env_at(word i, unsigned char *bytes, word n) { return -1; }
