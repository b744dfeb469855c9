/* What the trials in C know of malloc, realloc and free as the linker's --wrap has them (allocations.c). To be compiled with -fno-builtin, so that
 * the compiler doesn't take for granted what they change. */
#ifdef __cplusplus
extern "C" {
#endif

extern long asked;          /* how many allocations there were */
extern long refused;        /* which of them is refused, from 1 */
extern long kept;           /* how many blocks were allocated and not freed */
extern __thread int counts; /* whether this thread's are counted, and one of them refused */

#ifdef __cplusplus
}
#endif
