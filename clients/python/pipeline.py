"""A pipeline of three stages that survives kills: python3 pipeline.py PROGRAM [SEED]

Each text that is put in comes out of each stage once, in order, whatever is killed on the way."""

import random
import sys

import recall

STAGES = ["tee", "tee", "echo"]


def main(program, seed):
    """Runs the pipeline with crashes at random, and gives how many texts came out of each stage."""
    texts, chance = [f"text {n}" for n in range(100)], random.Random(seed)
    with recall.Flow(program, ["--audit"]) as flow:
        flow.open("pipeline", STAGES)
        for text in texts:
            crashes = [unit for unit in (1, 2) if chance.random() < 0.2]
            for unit in crashes:
                flow.kill("pipeline", unit)
            flow.post("pipeline", 0, text)
            for unit in crashes:
                flow.restart("pipeline", unit)
    outputs = list(flow)
    for unit in range(len(STAGES)):
        if [output.text for output in outputs if output.unit == unit] != texts:
            sys.exit(f"stage {unit} put out something else: {outputs}")
    return len(texts)


if __name__ == "__main__":
    if len(sys.argv) not in (2, 3) or not all(word.isdecimal() for word in sys.argv[2:]):
        sys.exit(__doc__)
    print(
        f"each of {main(sys.argv[1], int(sys.argv[-1]) if sys.argv[2:] else 0)} texts came out of each stage once, "
        "in order"
    )
