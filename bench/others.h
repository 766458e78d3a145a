/* What a user might pick instead: other generators, timed in the same process (others.cc). */
#ifdef __cplusplus
extern "C" {
#endif
double seconds(void);
/* Prints the rows for fills of `n` places into `out`. */
void others(void *out, size_t n);
#ifdef __cplusplus
}
#endif
