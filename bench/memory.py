"""What a process had at most, for the benches that tell of memory."""
import time


def most_memory(child):
    """The most memory that a process had until it ended, in bytes, looked at a hundred times a second."""
    most = 0
    while child.poll() is None:
        with open(f"/proc/{child.pid}/status") as status:
            most = max([most] + [int(line.split()[1]) for line in status if line.startswith("VmHWM:")])
        time.sleep(0.01)
    return most * 1024
