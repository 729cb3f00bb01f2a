"""What `edr check --summary` tells of a feed of bare grids, in plain python3: each line is read by json, and its samples
are counted and summed. It holds one grid at a time, and checks nothing."""
import json
import sys

edition = 0
for line in sys.stdin.buffer:
    if not line.strip():
        continue
    coverage = json.loads(line)
    edition += 1
    samples = present = total = 0
    for array in coverage["ranges"].values():
        for value in array["values"]:
            samples += 1
            if value is not None:
                present += 1
                total += value
    print(f"edition {edition}: collections 1, instances 1, stations 0, samples {samples}, present {present}, sum {total}")
