import sys

sys.path.insert(0, "companion")
import pqpage

value = pqpage.answer("examples/finds.csv", order="lines", header=3, drop=["Summe"])
print(value["answer"], [one["row"] for one in value["set aside"]])
