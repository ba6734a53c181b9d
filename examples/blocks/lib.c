/* A module that starts with the program. */
_Thread_local long shared[3] = {1, 2, 3};
