"""Runs a command, and prints how many processor seconds it took, how much memory it had at most, and the last line that it printed."""
import resource, subprocess, sys

ended = subprocess.run(sys.argv[1:], capture_output=True)
used = resource.getrusage(resource.RUSAGE_CHILDREN)
seconds, peak = used.ru_utime + used.ru_stime, used.ru_maxrss // 1024
lines = ended.stdout.decode(errors="replace").strip().splitlines()
print(f"{seconds:.2f} s, {peak} MiB at most: {lines[-1] if lines else f'printed nothing, status {ended.returncode}'}")
