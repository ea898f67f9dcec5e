import sys

sys.path.insert(0, "companion")
import pq

found = pq.solve("rows", b"4\n1 2\n2 3\n")
print(found.is_yes, found.trees)
print(pq.core("rows", b"3\n1 2\n2 3\n1 3\n").rows)
try:
    pq.solve("rows", b"3\n4\n")
except pq.Stop as stop:
    print(stop.status, stop.refusal)
