"""The parts of `pqpage`: reading tables, asking `pq`, and writing pages. `pqpage.py` is the way in."""
