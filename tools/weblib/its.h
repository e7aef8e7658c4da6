/* its.h: the program its as a library (crates/its_web/out/libits_web.a, which tools/web --library builds). docs/WEB.md says what is proved. */
#ifndef ITS_H
#define ITS_H

#include <stddef.h>
#include <stdint.h>

#ifdef __cplusplus
extern "C" {
#endif

/* What its_call answers: the exit status of the program (docs/SESSION.md, "The program"). */
enum its_status {
  ITS_DONE = 0,      /* the command is done */
  ITS_USAGE = 1,     /* the words are no command; the usage line is given */
  ITS_REFUSED = 2,   /* a line is refused; all up to and with its ? line is given */
  ITS_TOO_SHORT = 4, /* out is too short: call again with more room. Nothing is given */
  ITS_NO_MEMORY = 5, /* memory was refused. Nothing is given */
  ITS_TOO_LONG = 6,  /* the input has more than 1048576 lines (of a session, before its END) */
  ITS_NO_TEXT = 7    /* a word is not UTF-8. Nothing is given */
};

/* Obeys a command (run, check, gen, verify or asm) with a number, which is empty (length 0) if the command has none, on an input. What the
   program writes is in the first *count bytes of out. No pointer may be null, and out and count overlap nothing else. The call keeps nothing;
   its memory comes from malloc. It may be called by several threads at once. */
uint8_t its_call(const uint8_t *command, size_t command_length, const uint8_t *number, size_t number_length,
                 const uint8_t *input, size_t input_length, uint8_t *out, size_t out_length, size_t *count);

#ifdef __cplusplus
}
#endif

#endif
