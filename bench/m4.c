/* What a Cortex-M4 reads when it starts: where its stack begins, and where newlib's start-up is. A fault ends the run. */
extern char __stack[];
void _start(void);
void _exit(int);
static void fault(void) { _exit(3); }
__attribute__((section(".vectors"), used)) static void *const vectors[] = { __stack, _start, fault, fault, fault, fault, fault };
