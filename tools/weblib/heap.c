/* The heap of the WebAssembly module, in place of the C library's: blocks of 2^k bytes, and for each k a list of those that are free, over a
   memory that grows. The 16 bytes before a block's content hold k. Nothing here is proved. */
typedef unsigned long long word;

enum { HEAD = 16, LEAST = 5, MOST = 40, WASM_PAGE = 65536 };

struct tried { word ok; void *place; };
struct head { word size; struct head *next; };

extern unsigned char __heap_base[];
static struct head *lists[MOST + 1];
static unsigned char *top;

/* The least k such that 2^k bytes hold a head and n bytes; more than MOST if there is none. */
static word class_of(word n) {
  word k = LEAST;
  while (k <= MOST && ((word)1 << k) - HEAD < n) k += 1;
  return k;
}

/* Memory that was never used: nothing if it cannot grow. */
static void *fresh(word bytes) {
  if (!top) top = (unsigned char *)(((word)__heap_base + 15) / 16 * 16);
  word end = (word)__builtin_wasm_memory_size(0) * WASM_PAGE, wanted = (word)top + bytes;
  if (wanted > end && __builtin_wasm_memory_grow(0, (wanted - end + WASM_PAGE - 1) / WASM_PAGE) == (word)-1) return 0;
  void *place = top;
  top += bytes;
  return place;
}

static void *take(word n) {
  word k = class_of(n);
  if (k > MOST) return 0;
  struct head *block = lists[k];
  if (block) lists[k] = block->next;
  else block = fresh((word)1 << k);
  if (!block) return 0;
  block->size = k;
  return (unsigned char *)block + HEAD;
}

static void give(void *place) {
  struct head *block = (struct head *)((unsigned char *)place - HEAD);
  block->next = lists[block->size];
  lists[block->size] = block;
}

struct tried rattle_alloc(word n, word align) {
  void *place = take(n ? n : align);
  return (struct tried){place != 0, place};
}

struct tried rattle_realloc(void *old, word kept, word n, word align) {
  word size = n ? n : align;
  if (class_of(size) == ((struct head *)((unsigned char *)old - HEAD))->size) return (struct tried){1, old};
  void *place = take(size);
  if (!place) return (struct tried){0, 0};
  __builtin_memcpy(place, old, kept < n ? kept : n);
  give(old);
  return (struct tried){1, place};
}

void rattle_dealloc(void *place) { give(place); }
