/* Which of the library's kinds of processor the calls are for. */
#ifndef KIND_H
#define KIND_H

/* Lets the calls for x86-64-v3 be made, or those for x86-64-v2 alone. A library for one kind of
 * processor, and a processor of the older kind, have no choice. */
void allow_v3(int is_allowed);

#endif
