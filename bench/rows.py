"""What the benches of programs that answer rows share."""
import os
import subprocess
import sys
import tempfile


def measured(program, row):
    """The seconds of the program on a row, its peak memory in KiB, and its answer."""
    with tempfile.TemporaryFile() as rows, tempfile.TemporaryFile() as out:
        rows.write(f"{row}\n".encode())
        rows.seek(0)
        child = subprocess.Popen([program], stdin=rows, stdout=out)
        _, status, usage = os.wait4(child.pid, 0)
        if status != 0:
            sys.exit(f"{program} ended with {status}")
        out.seek(0)
        return usage.ru_utime + usage.ru_stime, usage.ru_maxrss, out.read().decode().strip()
