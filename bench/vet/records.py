"""Writes records of some 200 bytes, of which about one in nine breaks a rule; the seed is fixed."""
import json
import random
import sys

count = int(sys.argv[1]) if len(sys.argv) > 1 else 1_000_000
draw = random.Random(7)
for number in range(count):
    lines = [
        {"sku": draw.choice(["TEA", "JAM", "OIL", "RYE"]), "quantity": draw.randint(1, 9)}
        for _ in range(draw.randint(1, 3))
    ]
    record = {
        "id": f"r{number:07}",
        "name": draw.choice(["Ada", "Alan", "Amy", "Zoe", "Abe", "Ava"]),
        "age": draw.randint(18, 90),
        "seat": draw.choice([1, 2, 3, 4, 5, 6, 7, 8, 9, 10, 11, 12, 14, 15, 16]),
        "lines": lines,
        "note": "x" * draw.randint(20, 60),
    }
    fault = draw.randrange(36)
    if fault == 0:
        record["age"] = 17
    elif fault == 1:
        record["name"] = "Bo"
    elif fault == 2:
        record["seat"] = 13
    elif fault == 3:
        record["lines"][-1]["quantity"] = 0
    sys.stdout.write(json.dumps(record) + "\n")
