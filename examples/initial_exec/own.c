_Thread_local int own = 42;
