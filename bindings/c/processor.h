/* Which kind of processor this is. */
#ifndef ZAXBRIAR_PROCESSOR_H
#define ZAXBRIAR_PROCESSOR_H

/* Returns whether the processor and the system are of the kind x86-64-v3: whether there are AVX2
 * and what else that kind has beside x86-64-v2. The answer is the same throughout a process. */
int zaxbriar_is_v3(void);

#endif
