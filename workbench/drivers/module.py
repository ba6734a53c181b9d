"""Opens the module ./out in this process, and calls its functions from two threads, as the words say: see driver.h."""
import ctypes
import os
import queue
import sys
import threading


def serve(asked, answered):
    """The second thread."""
    while True:
        answered.put(asked.get()())


def main():
    if os.path.exists("./lib.so"):
        ctypes.CDLL("./lib.so", ctypes.RTLD_GLOBAL)
    module = ctypes.CDLL("./out", os.RTLD_NOW)
    # the loader's note of a module begins with the address where it lies
    begins = ctypes.cast(module._handle, ctypes.POINTER(ctypes.c_uint64))[0]
    asked, answered = queue.SimpleQueue(), queue.SimpleQueue()
    threading.Thread(target=serve, args=(asked, answered), daemon=True).start()
    words = sys.argv[1:]
    kind = ctypes.CFUNCTYPE(ctypes.c_uint64, *[ctypes.c_uint64] * 3)
    for thread, place, added in zip(words[::3], words[1::3], words[2::3]):
        function, number = kind(begins + int(place, 16)), int(added, 16)
        call = lambda: function(number, 0, 0)
        if thread == "1":
            value = call()
        else:
            asked.put(call)
            value = answered.get()
        os.write(1, b"%016x\n" % value)
    os._exit(0)


main()
