_Thread_local int shared = 7;
