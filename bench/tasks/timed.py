"""Times a task: prints its name, its value and the least processor time of a call, in
microseconds."""
import time


def timed(task, most=1.0):
    """Calls it again and again, for at most so many seconds of processor time."""
    value, best, count, end = task(), 1e9, 1, time.process_time() + most
    while time.process_time() < end:
        began = time.process_time()
        for _ in range(count):
            task()
        spent = time.process_time() - began
        best = min(best, spent / count)
        count = max(1, min(100, int(0.01 / max(best, 1e-7))))
    print(task.__name__, int(value), "%.1f" % (best * 1e6))
