import subprocess

done = subprocess.run(["./pq", "solve", "matrix", "-"], input=b"110\n011\n", capture_output=True)
if done.returncode > 1:
    raise SystemExit(done.stderr.decode())
words = dict(line.split(" ", 1) for line in done.stdout.decode().splitlines() if " " in line)
print(words["answer"], words.get("order"))
