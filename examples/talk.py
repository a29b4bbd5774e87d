"""Talks to the heap whose file is named: says a line, and reads its reply before it says the next one."""
import subprocess
import sys

talk = subprocess.Popen(["romulus_talk", sys.argv[1]], stdin=subprocess.PIPE, stdout=subprocess.PIPE, text=True)


def ask(line):
    print(line, file=talk.stdin, flush=True)
    return talk.stdout.readline().rstrip("\n")


print(ask("put 1 100"))
value = int(ask("get 1").split()[1])
print(ask(f"put 1 {value + 5}"))
print(ask("get 1"))
talk.stdin.close()
sys.exit(talk.wait())
