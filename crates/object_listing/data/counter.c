_Thread_local int counter = 40;
static _Thread_local long hidden;
extern _Thread_local int other;
const char name[] = "counter";
int next(int step) { hidden += step; return ++counter + (int)hidden; }
int *address(void) { return &other; }
